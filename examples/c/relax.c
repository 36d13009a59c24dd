/* A night table with a contradiction: solving says none, and then what to give up. Built and run by examples/test.sh. */
#include <stdio.h>

#include "saucepebbly.h"

/* Lorry A takes gate 1 (atom 1) or gate 2 (atom 2), lorry B gate 1 (atom 3) or gate 2 (atom 4); what the rules say stands beside them. */
static const char *const RULES[] = {
    "A takes gate 1 or gate 2",
    "B takes gate 1 or gate 2",
    "not both at gate 1",
    "not both at gate 2",
    "A cannot use gate 1",
    "B cannot use gate 1",
};
static const int32_t TABLE[] = {
    4, 0, 6, 2, 1, 2, 0, 0, 0, 2, 3, 4, 0, 0, 0, 0, 2, 1, 3, 0, 0, 0, 2, 2, 4, 0, 0, 0, 1, 1, 0, 0, 0, 1, 3, 0, 0,
};
#define TABLE_WORDS (sizeof TABLE / sizeof TABLE[0])

/* The memory that the entries work in. */
static uint16_t lists[SAUCEPEBBLY_LISTS];
static uint32_t candidates[SAUCEPEBBLY_CANDIDATES];

int main(void) {
    static uint8_t plan[256];
    uint32_t report[2], dropped[6];
    uint32_t kind = saucepebbly_solve(TABLE, TABLE_WORDS, SAUCEPEBBLY_OLD, 1000, plan, 256, report, 2, (uint16_t *)0, 0, lists, candidates);
    printf("solving: %s\n", kind == SAUCEPEBBLY_NONE ? "none" : "not none");
    kind = saucepebbly_relax(TABLE, TABLE_WORDS, SAUCEPEBBLY_OLD, 1000, dropped, 6, plan, 256, report, 2, lists, candidates);
    if (kind != SAUCEPEBBLY_ANSWER) {
        printf("kind %u\n", (unsigned)kind);
        return 1;
    }
    for (uint32_t k = 0; k < report[0]; k++)
        printf("give up rule %u: %s\n", (unsigned)dropped[k], RULES[dropped[k] - 1]);
    printf("then the plan is:");
    for (int i = 0; i < 4; i++)
        if (plan[i] == 1)
            printf(" %d", i + 1);
    printf("\n");
    return 0;
}
