/* Runs calls that give up constraints over the compiled library: a line for each, in and out, as tools/relax.py tells. Each call also looks whether the list and the plan keep
 * what they should: with an answer the places behind the numbers and the bytes above the atoms, else all. Needs no header of the C library, so that the kit's own
 * compiler builds it. */
#include "runner.h"

static int32_t words[32768];
static uint32_t dropped[2048];
static uint8_t plan[512];
static uint16_t lists[SAUCEPEBBLY_LISTS];
static uint32_t candidates[SAUCEPEBBLY_CANDIDATES];

/* The numbers of the next line; 0 at the end. */
static size_t next_line(long *numbers, size_t most) {
    size_t count = 0;
    int b = next_byte();
    while (b != '\n' && b >= 0) {
        int minus = 0;
        long value = 0;
        if (b == '-') {
            minus = 1;
            b = next_byte();
        }
        for (; b >= '0' && b <= '9'; b = next_byte())
            value = value * 10 + (b - '0');
        if (count < most)
            numbers[count++] = minus ? -value : value;
        if (b == ' ')
            b = next_byte();
    }
    return count;
}

static int kept(size_t numbers, size_t atoms) {
    for (size_t i = numbers; i < 2048; i++)
        if (dropped[i] != 77)
            return 0;
    for (size_t i = atoms; i < 512; i++)
        if (plan[i] != 7)
            return 0;
    return 1;
}

static void run(const long *numbers, size_t count) {
    uint32_t report[2];
    size_t places = (size_t)numbers[2], room = (size_t)numbers[3];
    for (size_t i = 4; i < count; i++)
        words[i - 4] = (int32_t)numbers[i];
    for (size_t i = 0; i < 2048; i++)
        dropped[i] = 77;
    for (size_t i = 0; i < 512; i++)
        plan[i] = 7;
    uint32_t kind = saucepebbly_relax(words, count - 4, (uint32_t)numbers[0], (uint32_t)numbers[1], dropped, places, plan, room, report, 2, lists, candidates);
    if (kind == SAUCEPEBBLY_ANSWER) {
        put_text("answer");
        for (uint32_t k = 0; k < report[0]; k++)
            put_number(dropped[k]);
        put_text(" :");
        for (size_t i = 0; i < (size_t)words[0]; i++)
            if (plan[i] == 1)
                put_number(i + 1);
    } else if (kind == SAUCEPEBBLY_NONE) {
        put_text("none");
    } else if (kind == SAUCEPEBBLY_LIMIT) {
        put_text("limit");
    } else {
        put_text("refused");
        put_number(report[0]);
        put_number(report[1]);
    }
    if (!(kind == SAUCEPEBBLY_ANSWER ? kept(report[0], (size_t)words[0]) : kept(0, 0)))
        put_text(" CHANGED");
    put('\n');
}

int main(void) {
    static long numbers[32768];
    size_t count;
    while ((count = next_line(numbers, 32768)) >= 4)
        run(numbers, count);
    flush();
    return 0;
}
