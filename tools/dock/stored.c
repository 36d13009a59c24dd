/* Runs the stored form over the compiled library: stored cases | stored tables | stored texts. `cases` has its input as tools/stored.py tells, a line a case, and what is
 * printed is compared. `tables` takes the tables of crates/run_tables and `texts` those of texts, after their limit, there and back: what is refused must be so with the
 * number and place that saucepebbly_open gives, and of any other the words must come back from the bytes, the bytes from the words, 16 from a buffer that is one byte too
 * short, and 24 with a name that is not empty. One line is printed, and the status is 0 only if all is as it should be. Needs no header of the C library, so that the
 * kit's own compiler builds it. */
#include "texts.h"

enum { ROOM = 524288 };

static int32_t words[32768], others[32768], memory[SAUCEPEBBLY_WORDS], session[SAUCEPEBBLY_SESSION_WORDS];
static uint8_t bytes[ROOM], again[ROOM];
static uint16_t lists[SAUCEPEBBLY_LISTS];

/* The memory that the entries work in, filled with something else before each call: no result depends on it. */
static void soil(void) {
    static uint32_t seed = 1;
    for (int i = 0; i < SAUCEPEBBLY_LISTS; i++)
        lists[i] = (uint16_t)((seed = seed * 1664525u + 1013904223u) >> 16);
    for (int i = 0; i < SAUCEPEBBLY_WORDS; i++)
        memory[i] = (int32_t)(seed = seed * 1664525u + 1013904223u);
}

static uint32_t store(size_t count, uint8_t *to, size_t room, uint32_t *report) {
    for (size_t i = 0; i < room; i++)
        to[i] = 35;
    soil();
    return saucepebbly_store(words, count, to, room, report, 2, lists);
}

static uint32_t restore(size_t length, size_t room, uint32_t *report) {
    for (size_t i = 0; i < room; i++)
        others[i] = -7;
    soil();
    return saucepebbly_restore(bytes, length, others, room, report, 2, memory, lists);
}

/* ---- cases: `s` or `r`, the room, the words or bytes */

static int next_value(long *value) {
    int b = next_byte(), minus = b == '-';
    *value = 0;
    if (minus)
        b = next_byte();
    for (; b >= '0' && b <= '9'; b = next_byte())
        *value = *value * 10 + (b - '0');
    if (minus)
        *value = -*value;
    return b == ' ';
}

static void put_result(uint32_t kind, const uint32_t *report, unsigned long sum) {
    put_text(kind == SAUCEPEBBLY_REFUSED ? "refused" : "wrote");
    put_number(report[0]);
    if (kind == SAUCEPEBBLY_REFUSED)
        put_number(report[1]);
    put_text(" /");
    put_number(sum);
    put('\n');
}

static void run_cases(void) {
    for (int way = next_byte(); way >= 0; way = next_byte()) {
        uint32_t report[2];
        unsigned long sum = 1;
        long room, value;
        size_t n = 0;
        next_byte();
        for (int is_more = next_value(&room); is_more; n++) {
            is_more = next_value(&value);
            if (way == 's')
                words[n] = (int32_t)value;
            else
                bytes[n] = (uint8_t)value;
        }
        uint32_t kind = way == 's' ? store(n, again, (size_t)room, report) : restore(n, (size_t)room, report);
        for (long i = 0; i < room; i++)
            sum = (sum * 33 + (way == 's' ? again[i] : (uint32_t)others[i]) + 1) % 65521;
        put_result(kind, report, sum);
    }
}

/* ---- there and back */

static int is_refused_as_opened(size_t count, const uint32_t *report) {
    uint32_t told[2] = {0, 0};
    soil();
    return saucepebbly_open(words, count, 0, session, told, 2, lists) == SAUCEPEBBLY_REFUSED && told[0] == report[0] && told[1] == report[1];
}

/* The words come back, and the rest of the buffer is kept. */
static int is_back(size_t count, size_t length) {
    uint32_t report[2];
    size_t room = SAUCEPEBBLY_WORDS + 5;
    int is_right = restore(length, room, report) == SAUCEPEBBLY_WROTE && report[0] == count;
    for (size_t i = 0; i < room; i++)
        is_right &= others[i] == (i < count ? words[i] : -7);
    return is_right;
}

/* A buffer that is one byte too short: 16, and nothing is written. */
static int is_kept(size_t count, size_t length) {
    uint32_t report[2];
    int is_right = store(count, again, length - 1, report) == SAUCEPEBBLY_REFUSED && report[0] == SAUCEPEBBLY_SHORT_BUFFER && report[1] == 0;
    for (size_t i = 0; i < length - 1; i++)
        is_right &= again[i] == 35;
    return is_right;
}

/* The same bytes from a buffer that is just long enough. */
static int is_again(size_t count, size_t length) {
    uint32_t report[2];
    int is_right = store(count, again, length, report) == SAUCEPEBBLY_WROTE && report[0] == length;
    for (size_t i = 0; i < length; i++)
        is_right &= again[i] == bytes[i];
    return is_right;
}

/* The last atom gets a name of one byte: 24, and nothing is written. */
static int is_lost(size_t length) {
    uint32_t report[2];
    size_t at = 2 * (size_t)words[0];
    for (size_t i = length; i-- > at + 2;)
        bytes[i + 1] = bytes[i];
    bytes[at] = 1;
    bytes[at + 2] = 0;
    int is_right = restore(length + 1, SAUCEPEBBLY_WORDS, report) == SAUCEPEBBLY_REFUSED && report[0] == SAUCEPEBBLY_NAMES_LOST && report[1] == 0;
    for (size_t i = 0; i < SAUCEPEBBLY_WORDS; i++)
        is_right &= others[i] == -7;
    return is_right;
}

static unsigned long back, refused, wrong;

static void run_trip(size_t count) {
    uint32_t report[2];
    if (store(count, bytes, ROOM, report) == SAUCEPEBBLY_REFUSED) {
        int is_alike = is_refused_as_opened(count, report);
        refused += is_alike;
        wrong += !is_alike;
        return;
    }
    size_t length = report[0];
    int is_right = is_back(count, length) && is_again(count, length) && is_kept(count, length) && (words[0] == 0 || is_lost(length));
    back += is_right;
    wrong += !is_right;
}

static void run_tables(void) {
    long count, room, given, value;
    while (next_number(&count) && next_number(&room) && next_number(&given)) {
        for (long i = 0; i < count; i++) {
            next_number(&value);
            words[i] = (int32_t)value;
        }
        for (long i = 0; i < given; i++)
            next_number(&value);
        run_trip((size_t)count);
    }
}

/* A text with anything but numbers in it is passed over. */
static void run_texts(void) {
    size_t n, count;
    uint32_t limit, place;
    while (next_text(&n))
        if (read_text(n, words, &limit, &count, &place) == 0)
            run_trip(count);
}

static int say_trips(void) {
    put_text("there and back:");
    put_number(back);
    put_text(" tables,");
    put_number(refused);
    put_text(" refused alike,");
    put_number(wrong);
    put_text(" wrong\n");
    return wrong != 0 || back == 0;
}

int main(int argc, char **argv) {
    int status = 0;
    if (argc == 2 && argv[1][0] == 'c')
        run_cases();
    else if (argc == 2 && argv[1][1] == 'a')
        run_tables();
    else
        run_texts();
    if (back + refused + wrong > 0)
        status = say_trips();
    flush();
    return status;
}
