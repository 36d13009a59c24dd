/* Runs the gate's tables and texts over the compiled library: runs tables | checks | all | texts | plainly | whys | passes | lists | read | write. Input from standard input, a
 * line for each case to standard output, as the programs that the gate runs print them; of passes, as tools/passes.py tells, of lists and all, as tools/lists.py, of checks and
 * plainly, as tools/head_cycles.py. After that, `both`: each table goes through the plain engine too; one line then says how many there were, and the status is 0 only if the two
 * engines differ on none. `cycles`: in the mode that takes head cycles. Needs no header of the C library, so that the kit's own compiler builds it. */
#include "texts.h"

static void put_atoms(const uint8_t *plan, long bytes) {
    for (long i = 0; i < bytes; i++)
        if (plan[i] == 1)
            put_number((unsigned long)i + 1);
}

/* ---- what is lent */

static int32_t words[32768];
static uint8_t plan[257];
static uint16_t whys[512];

static unsigned long mixed(unsigned long sum, unsigned long x) {
    return (sum * 33 + x + 1) % 65521;
}

/* The memory that the entries work in, filled with something else before each call: no result depends on it. */
static uint16_t lists[SAUCEPEBBLY_LISTS];
static uint32_t candidates[SAUCEPEBBLY_CANDIDATES];

static void soil(void) {
    static uint32_t seed = 1;
    for (int i = 0; i < SAUCEPEBBLY_LISTS; i++)
        lists[i] = (uint16_t)((seed = seed * 1664525u + 1013904223u) >> 16);
    for (int i = 0; i < SAUCEPEBBLY_CANDIDATES; i++)
        candidates[i] = seed = seed * 1664525u + 1013904223u;
}

static void put_refusal(const uint32_t *report) {
    put_text("refused");
    put_number(report[0]);
    put_number(report[1]);
}

/* ---- both engines on a table */

enum { PLAIN_LIMIT = 100000 };

static int is_both;
static uint32_t mode; /* of every call */
static uint8_t other[257];
static unsigned long alike, refused, halted, differing;

/* What saucepebbly_solve said of the words, beside the plain engine, whose limit may be smaller. With no limit in the way: the same kind and plan, no skips, and no fewer choices;
 * a refusal: the same number and place. The plain engine meets its limit wherever the other meets one. */
static void compare(size_t count, uint32_t limit, size_t room, uint32_t kind, const uint32_t *report) {
    uint32_t told[2] = {0, 0};
    uint32_t plainly = saucepebbly_plain(words, count, mode, limit < PLAIN_LIMIT ? limit : PLAIN_LIMIT, other, room, told, 2);
    if (plainly == SAUCEPEBBLY_LIMIT) {
        halted++;
        return;
    }
    int is_same = kind == plainly;
    for (size_t i = 0; i < room; i++)
        is_same &= plan[i] == other[i];
    if (kind == SAUCEPEBBLY_REFUSED)
        is_same &= told[0] == report[0] && told[1] == report[1];
    else
        is_same &= told[1] == 0 && told[0] >= report[0];
    if (!is_same)
        differing++;
    else if (kind == SAUCEPEBBLY_REFUSED)
        refused++;
    else
        alike++;
}

/* The plan buffer as it is, for the plain engine. */
static void keep(size_t room) {
    for (size_t i = 0; i < room; i++)
        other[i] = plan[i];
}

static int say_compared(void) {
    put_text("both engines:");
    put_number(alike + refused + halted + differing);
    put_text(" tables,");
    put_number(alike);
    put_text(" alike,");
    put_number(refused);
    put_text(" refused alike,");
    put_number(halted);
    put_text(" at the plain engine's limit,");
    put_number(differing);
    put_text(" differ\n");
    flush();
    return differing != 0 || alike == 0;
}

/* ---- a table, as crates/run_tables has it */

/* How many of all plans over a few atoms are approved, and which. */
static void put_approved(long count, long room) {
    uint32_t report[2];
    unsigned long found = 0, sum = 1;
    for (unsigned long code = 0; code < 1ul << words[0]; code++) {
        for (int i = 0; i < words[0]; i++)
            plan[i] = code >> i & 1;
        if (saucepebbly_approve(words, (size_t)count, mode, plan, (size_t)room, report, 2, lists, candidates) == SAUCEPEBBLY_YES) {
            found++;
            sum = mixed(sum, code);
        }
    }
    put_text(" /");
    put_number(found);
    put_number(sum);
}

static void run_table(long count, long room) {
    uint32_t checked[2] = {0, 0}, solved[2] = {0, 0};
    soil();
    uint32_t verdict = saucepebbly_approve(words, (size_t)count, mode, plan, (size_t)room, checked, 2, lists, candidates);
    keep((size_t)room);
    soil();
    uint32_t kind = saucepebbly_solve(words, (size_t)count, mode, 4294967295u, plan, (size_t)room, solved, 2, (uint16_t *)0, 0, lists, candidates);
    if (is_both) {
        compare((size_t)count, 4294967295u, (size_t)room, kind, solved);
        return;
    }
    if (kind == SAUCEPEBBLY_ANSWER) {
        put_text("answer");
        put_atoms(plan, room);
    } else if (kind == SAUCEPEBBLY_REFUSED)
        put_refusal(solved);
    else
        put_text(kind == SAUCEPEBBLY_NONE ? "none" : "limit");
    unsigned long sum = 1;
    for (long i = 0; i < room; i++)
        sum = mixed(sum, plan[i]);
    put_text(" /");
    put_number(sum);
    put_text(" / ");
    if (verdict == SAUCEPEBBLY_REFUSED)
        put_refusal(checked);
    else {
        put_text(verdict == SAUCEPEBBLY_YES ? "yes" : "no");
        if (count > 0 && words[0] <= 6)
            put_approved(count, room);
    }
    put('\n');
}

/* ---- every plan, as tools/lists.py tells */

static uint8_t rows[65536];

/* The bytes of the rows that are listed and of the one after them, so far as there are so many. */
static void put_rows(size_t length, size_t listed) {
    unsigned long sum = 1;
    for (size_t i = 0; i < length && i < 256 * (listed + 1); i++)
        sum = mixed(sum, rows[i]);
    put_text(" /");
    put_number(sum);
}

/* A listing: the first so many of its numbers, and its rows. */
static void list_table(const int32_t *table, size_t count, uint32_t limit, size_t length, int numbers) {
    static const char *const names[] = {"complete", "full", "limit"};
    uint32_t report[4] = {0, 0, 0, 0};
    for (size_t i = 0; i < length; i++)
        rows[i] = 7;
    soil();
    uint32_t kind = saucepebbly_list(table, count, mode, limit, rows, length, report, 4, lists, candidates);
    if (kind == SAUCEPEBBLY_REFUSED) {
        put_refusal(report);
        put_rows(length, 0);
    } else {
        put_text(names[kind]);
        for (int i = 0; i < numbers; i++)
            put_number(report[i]);
        put_rows(length, report[0]);
    }
}

/* All plans of a table of a few atoms. */
static void list_all(const int32_t *table, size_t count) {
    if (count > 0 && table[0] > 8)
        put('-');
    else
        list_table(table, count, 4294967295u, sizeof rows, 1);
    put('\n');
}

/* What the check says of the plan, alone. */
static void check_table(long count, long room) {
    uint32_t report[2] = {0, 0};
    soil();
    uint32_t verdict = saucepebbly_approve(words, (size_t)count, mode, plan, (size_t)room, report, 2, lists, candidates);
    if (verdict == SAUCEPEBBLY_REFUSED)
        put_refusal(report);
    else
        put_text(verdict == SAUCEPEBBLY_YES ? "yes" : "no");
    put('\n');
}

static void run_tables(const char *what) {
    long count, room, given, value;
    while (next_number(&count) && next_number(&room) && next_number(&given)) {
        for (long i = 0; i < count; i++) {
            next_number(&value);
            words[i] = (int32_t)value;
        }
        for (long i = 0; i < room; i++)
            plan[i] = 7;
        for (long i = 0; i < given; i++) {
            next_number(&value);
            plan[i] = (uint8_t)value;
        }
        if (what[0] == 'a')
            list_all(words, (size_t)count);
        else if (what[0] == 'c')
            check_table(count, room);
        else
            run_table(count, room);
    }
}

/* ---- texts */

/* Each atom that has a round or a rule, with both. */
static void put_whys(void) {
    put_text("why");
    for (unsigned long i = 0; i < 256; i++)
        if (whys[2 * i] || whys[2 * i + 1]) {
            put_number(i + 1);
            put_number(whys[2 * i]);
            put_number(whys[2 * i + 1]);
        }
    put('\n');
}

/* The line of a text: with a report of two places as the text program has it, with one of three the passes in the place of the plan; with none, by the plain engine. */
static void run_text(size_t n, size_t places) {
    static const char *const names[] = {"answer", "none", "limit", "refused"};
    uint32_t report[3] = {0, 0, 0}, limit = 0, kind = SAUCEPEBBLY_REFUSED;
    size_t count;
    report[0] = read_text(n, words, &limit, &count, &report[1]);
    for (int i = 0; i < 256; i++)
        plan[i] = 0;
    for (int i = 0; i < 512; i++)
        whys[i] = 9;
    keep(256);
    soil();
    int is_read = report[0] == 0;
    if (is_read && places)
        kind = saucepebbly_solve(words, count, mode, limit, plan, 256, report, places, whys, 512, lists, candidates);
    else if (is_read)
        kind = saucepebbly_plain(words, count, mode, limit, plan, 256, report, 2);
    size_t told = places ? places : 2;
    if (is_both) {
        if (is_read)
            compare(count, limit, 256, kind, report);
        return;
    }
    put_text(names[kind]);
    for (size_t i = 0; i < told; i++)
        put_number(report[i]);
    if (told == 2 && kind == SAUCEPEBBLY_ANSWER) {
        put(':');
        put_atoms(plan, 256);
    }
    put('\n');
}

/* A listing as the vectors have it: before the table the length of the rows; then all plans of that table. */
static void run_list(size_t n) {
    uint32_t limit = 0, place = 0;
    size_t count;
    if (read_text(n, words, &limit, &count, &place) != 0 || count == 0)
        return;
    list_table(words + 1, count - 1, limit, (size_t)words[0], 3);
    put('\n');
    list_all(words + 1, count - 1);
}

/* With the rounds and rules after each line, as crates/run_why has them, or without; with reports of so many places, of a listing 4. */
static void run_texts(int is_why, size_t places) {
    size_t n;
    while (next_text(&n)) {
        if (places == 4)
            run_list(n);
        else
            run_text(n, places);
        if (is_why && !is_both)
            put_whys();
    }
}

/* ---- aspif, as crates/run_aspif_read and crates/run_aspif_write have it */

static long next_decimal(void) {
    long value = 0;
    int b = next_byte();
    if (b < 0)
        return -1;
    for (; b >= '0' && b <= '9'; b = next_byte())
        value = value * 10 + (b - '0');
    return value;
}

/* A text and a buffer of so many words, -7 everywhere: the words, or the refusal, and how many words are as before. */
static void read_aspif(size_t n, size_t room) {
    uint32_t report[2];
    size_t kept = 0;
    for (size_t i = 0; i < room; i++)
        words[i] = -7;
    if (saucepebbly_read_aspif(text, n, words, room, report, 2) == SAUCEPEBBLY_REFUSED)
        put_refusal(report);
    else {
        put_text("wrote");
        put_number(report[0]);
        put(':');
        for (size_t i = 0; i < report[0]; i++) {
            if (words[i] < 0)
                put_text(" -1"); /* the only word below 0 that a table of the reader has */
            else
                put_number((unsigned long)words[i]);
        }
    }
    for (size_t i = 0; i < room; i++)
        kept += words[i] == -7;
    put_text(" /");
    put_number(kept);
    put('\n');
}

static void read_aspifs(void) {
    for (;;) {
        long room = next_decimal(), n = next_decimal();
        if (room < 0 || n < 0 || room > 32768 || n > 65536)
            return;
        for (long i = 0; i < n; i++)
            text[i] = (uint8_t)next_byte();
        read_aspif((size_t)n, (size_t)room);
    }
}

/* A table and a buffer of so many bytes, `#` everywhere: the result and the buffer. */
static void write_aspif(size_t count, size_t room) {
    static uint8_t made[65536];
    uint32_t report[2];
    for (size_t i = 0; i < room; i++)
        made[i] = '#';
    soil();
    if (saucepebbly_write_aspif(words, count, made, room, report, 2, lists) == SAUCEPEBBLY_REFUSED)
        put_refusal(report);
    else {
        put_text("wrote");
        put_number(report[0]);
    }
    put('\n');
    for (size_t i = 0; i < room; i++)
        put((char)made[i]);
    put('\n');
}

static void write_aspifs(void) {
    uint32_t room, place;
    size_t n, count;
    while (next_text(&n))
        if (read_text(n, words, &room, &count, &place) == 0 && room <= 65536)
            write_aspif(count, room);
}

static int is_word(const char *a, const char *b) {
    while (*a && *a == *b) {
        a++;
        b++;
    }
    return *a == *b;
}

int main(int argc, char **argv) {
    const char *what = argc >= 2 ? argv[1] : "tables";
    for (int i = 2; i < argc; i++) {
        is_both |= is_word(argv[i], "both");
        if (is_word(argv[i], "cycles"))
            mode = SAUCEPEBBLY_HEAD_CYCLES;
    }
    if (is_word(what, "read"))
        read_aspifs();
    else if (is_word(what, "write"))
        write_aspifs();
    else if (is_word(what, "texts"))
        run_texts(0, 2);
    else if (is_word(what, "plainly"))
        run_texts(0, 0);
    else if (is_word(what, "whys"))
        run_texts(1, 2);
    else if (is_word(what, "passes"))
        run_texts(0, 3);
    else if (is_word(what, "lists"))
        run_texts(0, 4);
    else
        run_tables(what);
    if (is_both)
        return say_compared();
    flush();
    return 0;
}
