/* Lists the plans of a small table, first into rows for all of them, then into two rows. Built and run by examples/test.sh. */
#include <stdio.h>
#include <string.h>

#include "saucepebbly.h"

/* 1 | 2.  3 | 4.  and no plan has both 1 and 3. */
static const int32_t TABLE[] = {
    4, 0, 3, 2, 1, 2, 0, 0, 0, 2, 3, 4, 0, 0, 0, 0, 2, 1, 3, 0, 0,
};
#define TABLE_WORDS (sizeof TABLE / sizeof TABLE[0])

static const char *const ENDS[] = {"complete", "full", "limit", "refused"};

/* The memory that the entry works in. */
static uint16_t lists[SAUCEPEBBLY_LISTS];
static uint32_t candidates[SAUCEPEBBLY_CANDIDATES];

static void list(size_t count) {
    static uint8_t rows[4 * 256];
    uint32_t report[4];
    memset(rows, 7, sizeof rows);
    uint32_t kind = saucepebbly_list(TABLE, TABLE_WORDS, SAUCEPEBBLY_OLD, 1000, rows, 256 * count, report, 4, lists, candidates);
    printf("%s: %u listed, %u choices, %u skips\n", ENDS[kind], (unsigned)report[0], (unsigned)report[1], (unsigned)report[2]);
    for (uint32_t row = 0; row < report[0]; row++) {
        for (int i = 0; i < 256; i++) {
            if (rows[256 * row + i] == 1) {
                printf(" %d", i + 1);
            }
        }
        printf("\n");
    }
    printf("the row after them begins with %d\n", rows[256 * report[0]]);
}

int main(void) {
    list(3);
    list(2);
    return 0;
}
