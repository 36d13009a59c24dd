/* Runs sessions with pins over the compiled library: pins scripts | pins sets | pins wild. Input from standard input, as tools/pins.py tells; what is printed is compared.
 * Every call of `scripts` and `sets` also looks whether a refusal or a plan left the session as it stood, byte for byte. `wild` makes calls on sessions that no `open` made.
 * Needs no header of the C library, so that the kit's own compiler builds it. */
#include "runner.h"

/* ---- calls, a line each: a letter and numbers */

static int32_t words[32768];
static long numbers[32768];

/* The letter of the next line, and its numbers; -1 at the end. */
static int next_call(size_t *count) {
    int letter = next_byte(), b = next_byte();
    *count = 0;
    while (b == ' ') {
        int minus = 0;
        long value = 0;
        b = next_byte();
        if (b == '-') {
            minus = 1;
            b = next_byte();
        }
        for (; b >= '0' && b <= '9'; b = next_byte())
            value = value * 10 + (b - '0');
        numbers[(*count)++] = minus ? -value : value;
    }
    return letter;
}

/* ---- a session, and whether a call that must not change it does */

static int32_t session[SAUCEPEBBLY_SESSION_WORDS], before[SAUCEPEBBLY_SESSION_WORDS];
static uint8_t plan[257];
static uint16_t whys[512];
static uint32_t report[3];
static uint16_t lists[SAUCEPEBBLY_LISTS];
static uint32_t candidates[SAUCEPEBBLY_CANDIDATES];

static void keep(void) {
    for (size_t i = 0; i < SAUCEPEBBLY_SESSION_WORDS; i++)
        before[i] = session[i];
}

static int is_kept(void) {
    for (size_t i = 0; i < SAUCEPEBBLY_SESSION_WORDS; i++)
        if (before[i] != session[i])
            return 0;
    return 1;
}

static uint32_t open_words(size_t count, uint32_t mode) {
    for (size_t i = 0; i < count; i++)
        words[i] = (int32_t)numbers[i];
    keep();
    uint32_t kind = saucepebbly_open(words, count, mode, session, report, 3, lists);
    for (size_t i = 0; i < count; i++)
        words[i] = -1; /* the session has its own copy */
    return kind;
}

static void put_changed(uint32_t kind) {
    if (kind == SAUCEPEBBLY_REFUSED) {
        put_text("refused");
        put_number(report[0]);
        put_number(report[1]);
        if (!is_kept())
            put_text(" CHANGED");
    } else
        put_text("done");
    put('\n');
}

static uint32_t make_plan(size_t room, uint32_t limit) {
    for (int i = 0; i < 257; i++)
        plan[i] = 7;
    for (int i = 0; i < 512; i++)
        whys[i] = 9;
    keep();
    return saucepebbly_plan(session, limit, plan, room, report, 3, whys, 512, lists, candidates);
}

static void put_atoms(void) {
    put(':');
    for (unsigned long i = 0; i < 256; i++)
        if (plan[i] == 1)
            put_number(i + 1);
}

static const char *const names[] = {"answer", "none", "limit", "refused"};

static void put_plan(size_t room, uint32_t kind, int is_counted) {
    put_text(names[kind]);
    for (int i = 0; i < 3 && (is_counted || kind == SAUCEPEBBLY_REFUSED); i++)
        put_number(report[i]);
    if (kind == SAUCEPEBBLY_ANSWER)
        put_atoms();
    unsigned long sum = 1;
    for (size_t i = 0; i < room; i++)
        sum = (sum * 33 + plan[i] + 1) % 65521;
    put_text(" /");
    put_number(sum);
    put_text(" / why");
    for (unsigned long i = 0; i < 256; i++)
        if (whys[2 * i] || whys[2 * i + 1]) {
            put_number(i + 1);
            put_number(whys[2 * i]);
            put_number(whys[2 * i + 1]);
        }
    if (!is_kept())
        put_text(" CHANGED");
    put('\n');
}

static void run_scripts(void) {
    size_t count;
    for (int letter; (letter = next_call(&count)) >= 0;) {
        if (letter == 'o' || letter == 'c')
            put_changed(open_words(count, letter == 'c'));
        else if (letter == 'l' || letter == 'L')
            put_plan((size_t)numbers[0], make_plan((size_t)numbers[0], (uint32_t)numbers[1]), letter == 'l');
        else {
            keep();
            put_changed(letter == 'u' ? saucepebbly_unpin(session, report, 3)
                                      : saucepebbly_pin(session, (uint32_t)numbers[0], (uint32_t)numbers[1], report, 3));
        }
    }
}

/* ---- every set of up to three pins: the atoms ascend, false comes before true */

static void put_set(int size, const int *atoms, unsigned values) {
    for (int i = 0; i < size; i++)
        if (saucepebbly_pin(session, (uint32_t)atoms[i], values >> (size - 1 - i) & 1, report, 3) != SAUCEPEBBLY_DONE)
            put_text("REFUSED ");
    uint32_t kind = make_plan(256, 4294967295u);
    put_text(names[kind]);
    if (kind == SAUCEPEBBLY_ANSWER)
        put_atoms();
    put('\n');
    for (int i = 0; i < size; i++)
        if (saucepebbly_unpin(session, report, 3) != SAUCEPEBBLY_DONE)
            put_text("REFUSED ");
}

static void put_sets(int size, int n) {
    int atoms[3] = {1, 2, 3};
    for (;;) {
        if (size > n)
            return;
        for (unsigned values = 0; values < 1u << size; values++)
            put_set(size, atoms, values);
        int i = size - 1;
        while (i >= 0 && atoms[i] == n - size + 1 + i)
            i--;
        if (i < 0)
            return;
        for (atoms[i]++; i + 1 < size; i++)
            atoms[i + 1] = atoms[i] + 1;
    }
}

static void run_sets(void) {
    size_t count;
    while (next_call(&count) >= 0) {
        if (open_words(count, SAUCEPEBBLY_OLD) != SAUCEPEBBLY_DONE)
            put_text("REFUSED\n");
        for (int size = 0; size < 4; size++)
            put_sets(size, (int)numbers[0]);
    }
}

/* ---- memory that no `open` made: no call harms, and one that refuses leaves it as it stood */

static uint32_t seed = 1;

static uint32_t next_random(void) {
    seed = seed * 1664525u + 1013904223u;
    return seed >> 8;
}

static void fill_wildly(void) {
    uint32_t most = (uint32_t[]){2, 5, 70, 600, 20000, 16777216}[next_random() % 6];
    for (size_t i = 0; i < SAUCEPEBBLY_SESSION_WORDS; i++)
        session[i] = (int32_t)(next_random() % most) * (next_random() % 4 ? 1 : -1);
}

static void run_wild(void) {
    unsigned long wrong = 0, refused = 0;
    for (int round = 0; round < 400; round++) {
        if (round)
            fill_wildly();
        for (int call = 0; call < 40; call++) {
            keep();
            uint32_t kind = call % 3 == 0   ? make_plan(256, 1000)
                            : call % 3 == 1 ? saucepebbly_unpin(session, report, 3)
                                            : saucepebbly_pin(session, next_random() % 300, next_random() % 2, report, 3);
            if (call == 0 && round == 0 && !(kind == SAUCEPEBBLY_REFUSED && report[0] == SAUCEPEBBLY_ABSENT_WORD && report[1] == 0))
                wrong++; /* memory of zeros holds no word */
            refused += kind == SAUCEPEBBLY_REFUSED;
            wrong += kind > SAUCEPEBBLY_REFUSED || ((kind == SAUCEPEBBLY_REFUSED || call % 3 == 0) && !is_kept());
        }
    }
    put_text(wrong ? "wild: WRONG" : "wild: as it should be");
    put_text(refused ? "\n" : ", but nothing was refused\n");
}

int main(int argc, char **argv) {
    if (argc == 2 && argv[1][0] == 'w')
        run_wild();
    else if (argc == 2 && argv[1][1] == 'e')
        run_sets();
    else
        run_scripts();
    flush();
    return 0;
}
