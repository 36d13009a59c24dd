/* aspif, the ASP intermediate format, from standard input:
 *     aspif read     reads a text, solves it, and prints the plan
 *     aspif write    reads a table as the text program takes it (limit, then words) and prints it as a text
 * Built and run by examples/test.sh. */
#include <stdio.h>
#include <string.h>

#include "saucepebbly.h"

#define WORDS 16384

static uint8_t text[1 << 22];
static int32_t words[WORDS];

/* The memory that solving and writing work in. */
static uint16_t lists[SAUCEPEBBLY_LISTS];
static uint32_t candidates[SAUCEPEBBLY_CANDIDATES];

static int refused(const char *what, const uint32_t *report) {
    printf("%s: refused %u %u\n", what, (unsigned)report[0], (unsigned)report[1]);
    return 1;
}

static int read_and_solve(void) {
    uint32_t report[2];
    uint8_t plan[256];
    size_t length = fread(text, 1, sizeof text, stdin);
    if (saucepebbly_read_aspif(text, length, words, WORDS, report, 2) == SAUCEPEBBLY_REFUSED) {
        return refused("text", report);
    }
    uint32_t count = report[0];
    uint32_t kind = saucepebbly_solve(words, count, SAUCEPEBBLY_OLD, 1000000, plan, sizeof plan, report, 2, NULL, 0, lists, candidates);
    if (kind == SAUCEPEBBLY_REFUSED) {
        return refused("table", report);
    }
    printf(kind == SAUCEPEBBLY_ANSWER ? "answer:" : kind == SAUCEPEBBLY_NONE ? "none" : "limit");
    for (int32_t atom = 1; kind == SAUCEPEBBLY_ANSWER && atom <= words[0]; atom++) {
        if (plan[atom - 1] == 1) {
            printf(" %d", (int)atom);
        }
    }
    printf("\n");
    return 0;
}

static int write_table(void) {
    uint32_t report[2];
    unsigned limit;
    int word;
    size_t count = 0;
    if (scanf("%u", &limit) != 1) {
        return 1;
    }
    while (count < WORDS && scanf("%d", &word) == 1) {
        words[count++] = (int32_t)word;
    }
    if (saucepebbly_write_aspif(words, count, text, sizeof text, report, 2, lists) == SAUCEPEBBLY_REFUSED) {
        return refused("table", report);
    }
    return fwrite(text, 1, report[0], stdout) != report[0];
}

int main(int argc, char **argv) {
    if (argc == 2 && strcmp(argv[1], "read") == 0) {
        return read_and_solve();
    }
    if (argc == 2 && strcmp(argv[1], "write") == 0) {
        return write_table();
    }
    return 2;
}
