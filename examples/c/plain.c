/* Puts tables through both engines: the plain search beside the jumping one. Built and run by examples/test.sh. */
#include <stdio.h>
#include <stdlib.h>
#include <string.h>

#include "saucepebbly.h"

/* 1 | 2.  3 | 4.  5 | 6.  7 | 8.  and four constraints that together rule out atom 1. */
static const int32_t TABLE[] = {
    8, 0, 8,                                                                            /* atoms, aggregates, rules */
    2, 1, 2, 0, 0, 0,    2, 3, 4, 0, 0, 0,    2, 5, 6, 0, 0, 0,    2, 7, 8, 0, 0, 0,    /* the pairs */
    0, 3, 1, 5, 7, 0, 0, 0, 3, 1, 5, 8, 0, 0, 0, 3, 1, 6, 7, 0, 0, 0, 3, 1, 6, 8, 0, 0, /* the constraints */
};
static const int32_t ODD_LOOP[] = {1, 0, 1, 1, 1, 0, 1, 1, 0};               /* 1 :- not 1. */
static const int32_t HEAD_CYCLE[] = {2, 0, 3, 2, 1, 2, 0, 0, 0, 1, 1, 1, 2, 0, 0, 1, 2, 1, 1, 0, 0}; /* 1 | 2.  1 :- 2.  2 :- 1. */

/* The memory that saucepebbly_solve works in. */
static uint16_t lists[SAUCEPEBBLY_LISTS];
static uint32_t candidates[SAUCEPEBBLY_CANDIDATES];

static void print_result(const char *engine, uint32_t kind, const uint32_t *report, const uint8_t *plan) {
    static const char *const kinds[] = {"answer", "none", "limit", "refused"};
    printf("%s: %s %u %u", engine, kinds[kind], (unsigned)report[0], (unsigned)report[1]);
    if (kind == SAUCEPEBBLY_ANSWER) {
        printf(":");
        for (int atom = 1; atom <= 256; atom++) {
            if (plan[atom - 1] == 1) {
                printf(" %d", atom);
            }
        }
    }
    printf("\n");
}

/* Both engines with the same limit. Where the plain one does not meet it, they agree, and the jumping one has opened no more choices. */
static void put_through_both(const int32_t *words, size_t count, uint32_t limit) {
    uint8_t plan[256] = {0}, other[256] = {0};
    uint32_t report[2], told[2];
    uint32_t kind = saucepebbly_solve(words, count, SAUCEPEBBLY_OLD, limit, plan, sizeof plan, report, 2, NULL, 0, lists, candidates);
    uint32_t plainly = saucepebbly_plain(words, count, SAUCEPEBBLY_OLD, limit, other, sizeof other, told, 2);
    print_result("jumping", kind, report, plan);
    print_result("plain", plainly, told, other);
    if (plainly != SAUCEPEBBLY_LIMIT && (kind != plainly || memcmp(plan, other, sizeof plan) != 0)) {
        printf("WRONG: the engines differ\n");
        exit(1);
    }
}

int main(void) {
    put_through_both(TABLE, sizeof TABLE / sizeof TABLE[0], 100);
    put_through_both(TABLE, sizeof TABLE / sizeof TABLE[0], 6);
    put_through_both(ODD_LOOP, sizeof ODD_LOOP / sizeof ODD_LOOP[0], 100);
    put_through_both(HEAD_CYCLE, sizeof HEAD_CYCLE / sizeof HEAD_CYCLE[0], 100);
    return 0;
}
