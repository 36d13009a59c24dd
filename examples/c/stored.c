/* A table stored to a file, and read back from it:
 *     stored write FILE    reads a table as the text program takes it (limit, then words) from standard input and stores it
 *     stored read FILE     restores the table, prints its words, and the plan
 * The stored form has a place for a name of each atom; the words have none, so a file in which some other program has put names is refused.
 * Built and run by examples/test.sh. */
#include <stdio.h>
#include <string.h>

#include "saucepebbly.h"

static uint8_t bytes[1 << 20];
static int32_t words[SAUCEPEBBLY_WORDS];

/* The memory that the entries work in. */
static int32_t memory[SAUCEPEBBLY_WORDS];
static uint16_t lists[SAUCEPEBBLY_LISTS];
static uint32_t candidates[SAUCEPEBBLY_CANDIDATES];

static int refused(const char *what, const uint32_t *report) {
    printf("%s: refused %u %u\n", what, (unsigned)report[0], (unsigned)report[1]);
    return 1;
}

static int write_file(const char *name) {
    uint32_t report[2];
    unsigned limit;
    int word;
    size_t count = 0;
    if (scanf("%u", &limit) != 1) {
        return 1;
    }
    while (count < SAUCEPEBBLY_WORDS && scanf("%d", &word) == 1) {
        words[count++] = (int32_t)word;
    }
    if (saucepebbly_store(words, count, bytes, sizeof bytes, report, 2, lists) == SAUCEPEBBLY_REFUSED) {
        return refused("table", report);
    }
    FILE *file = fopen(name, "wb");
    if (file == NULL) {
        return 1;
    }
    size_t wrote = fwrite(bytes, 1, report[0], file);
    if (fclose(file) != 0 || wrote != report[0]) {
        return 1;
    }
    printf("stored: %u bytes\n", (unsigned)report[0]);
    return 0;
}

static int read_file(const char *name) {
    uint32_t report[2];
    uint8_t plan[256];
    FILE *file = fopen(name, "rb");
    if (file == NULL) {
        return 1;
    }
    size_t length = fread(bytes, 1, sizeof bytes, file);
    fclose(file);
    if (saucepebbly_restore(bytes, length, words, SAUCEPEBBLY_WORDS, report, 2, memory, lists) == SAUCEPEBBLY_REFUSED) {
        return refused("file", report);
    }
    uint32_t count = report[0];
    printf("restored:");
    for (uint32_t i = 0; i < count; i++) {
        printf(" %d", (int)words[i]);
    }
    printf("\n");
    if (saucepebbly_solve(words, count, SAUCEPEBBLY_OLD, 1000000, plan, sizeof plan, report, 2, NULL, 0, lists, candidates) != SAUCEPEBBLY_ANSWER) {
        return 1;
    }
    printf("answer:");
    for (int32_t atom = 1; atom <= words[0]; atom++) {
        if (plan[atom - 1] == 1) {
            printf(" %d", (int)atom);
        }
    }
    printf("\n");
    return 0;
}

int main(int argc, char **argv) {
    if (argc == 3 && strcmp(argv[1], "write") == 0) {
        return write_file(argv[2]);
    }
    if (argc == 3 && strcmp(argv[1], "read") == 0) {
        return read_file(argv[2]);
    }
    return 2;
}
