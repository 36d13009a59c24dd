/* Solves a small table, checks the plan, and shows what happens to the buffers. Built and run by examples/test.sh. */
#include <stdio.h>
#include <stdlib.h>
#include <string.h>

#include "saucepebbly.h"

#define UNTOUCHED 7

/* The memory that the entries work in. What it holds before a call does not matter. */
static uint16_t lists[SAUCEPEBBLY_LISTS];
static uint32_t candidates[SAUCEPEBBLY_CANDIDATES];

/* 1 | 2.  3 | 4.  5 | 6.  7 | 8.  and four constraints that together rule out atom 1. */
static const int32_t TABLE[] = {
    8, 0, 8,                                                                           /* atoms, aggregates, rules */
    2, 1, 2, 0, 0, 0,    2, 3, 4, 0, 0, 0,    2, 5, 6, 0, 0, 0,    2, 7, 8, 0, 0, 0,    /* the pairs */
    0, 3, 1, 5, 7, 0, 0, 0, 3, 1, 5, 8, 0, 0, 0, 3, 1, 6, 7, 0, 0, 0, 3, 1, 6, 8, 0, 0, /* the constraints */
};
#define TABLE_WORDS (sizeof TABLE / sizeof TABLE[0])

/* 1 | 2.  3 :- 1.  4 :- 3, not 2.  5 :- 4.  5 :- 1, 3. */
static const int32_t CHAIN[] = {
    5, 0, 5, 2, 1, 2, 0, 0, 0, 1, 3, 1, 1, 0, 0, 1, 4, 1, 3, 1, 2, 0, 1, 5, 1, 4, 0, 0, 1, 5, 2, 1, 3, 0, 0,
};
#define CHAIN_WORDS (sizeof CHAIN / sizeof CHAIN[0])

static void expect(int is_so, const char *what) {
    if (!is_so) {
        printf("WRONG: %s\n", what);
        exit(1);
    }
}

static int all_untouched(const uint8_t *bytes, size_t from, size_t to) {
    for (size_t i = from; i < to; i++) {
        if (bytes[i] != UNTOUCHED) {
            return 0;
        }
    }
    return 1;
}

static void solve_it(uint8_t *plan, size_t plan_len) {
    uint32_t report[3] = {99, 99, 99};
    uint32_t kind = saucepebbly_solve(TABLE, TABLE_WORDS, SAUCEPEBBLY_OLD, 100, plan, plan_len, report, 2, NULL, 0, lists, candidates);
    expect(kind == SAUCEPEBBLY_ANSWER, "an answer");
    expect(all_untouched(plan, 8, plan_len), "bytes past the atoms are kept");
    expect(report[2] == 99, "only two places of the report are written");
    printf("answer %u %u:", (unsigned)report[0], (unsigned)report[1]);
    for (int i = 0; i < 8; i++) {
        if (plan[i] == 1) {
            printf(" %d", i + 1);
        }
    }
    printf("\n");
}

/* Where rule `number`, from 1, begins in a table without aggregates: each rule is four lists after their counts. */
static const int32_t *rule_at(const int32_t *words, int number) {
    const int32_t *at = words + 3;
    for (int lists = 4 * (number - 1); lists > 0; lists--) {
        at += 1 + at[0];
    }
    return at;
}

/* Why an atom is in the plan: its rule, and below it the same for each positive body atom of that rule. Rounds get smaller, so this ends. */
static void explain(const int32_t *words, const uint16_t *whys, int atom, int depth) {
    int round = whys[2 * (atom - 1)], rule = whys[2 * (atom - 1) + 1];
    printf("%*s%d: rule %d, round %d\n", 2 * depth, "", atom, rule, round);
    const int32_t *head = rule_at(words, rule), *positive = head + 1 + head[0];
    for (int i = 1; i <= positive[0]; i++) {
        explain(words, whys, positive[i], depth + 1);
    }
}

static void ask_why(uint8_t *plan, size_t plan_len) {
    uint32_t report[2];
    uint16_t whys[512];
    memset(whys, 0xff, sizeof whys);
    expect(saucepebbly_solve(CHAIN, CHAIN_WORDS, SAUCEPEBBLY_OLD, 100, plan, plan_len, report, 2, whys, 512, lists, candidates) == SAUCEPEBBLY_ANSWER, "an answer");
    expect(whys[2] == 0 && whys[3] == 0, "atom 2 is false and has no round");
    explain(CHAIN, whys, 5, 0);
    expect(saucepebbly_solve(TABLE, TABLE_WORDS, SAUCEPEBBLY_OLD, 5, plan, plan_len, report, 2, whys, 512, lists, candidates) == SAUCEPEBBLY_LIMIT, "the limit");
    for (int i = 0; i < 512; i++) {
        expect(whys[i] == 0, "only an answer has rounds");
    }
    whys[0] = 99;
    expect(saucepebbly_solve(CHAIN, CHAIN_WORDS, SAUCEPEBBLY_OLD, 100, plan, plan_len, report, 2, whys, 511, lists, candidates) == SAUCEPEBBLY_ANSWER, "an answer");
    expect(whys[0] == 99, "a short array is not written");
}

static void approve_it(uint8_t *plan, size_t plan_len) {
    uint32_t report[2] = {0, 0};
    expect(saucepebbly_approve(TABLE, TABLE_WORDS, SAUCEPEBBLY_OLD, plan, plan_len, report, 2, lists, candidates) == SAUCEPEBBLY_YES, "the plan is approved");
    plan[3] = 1;
    expect(saucepebbly_approve(TABLE, TABLE_WORDS, SAUCEPEBBLY_OLD, plan, plan_len, report, 2, lists, candidates) == SAUCEPEBBLY_NO, "atom 4 has no rule left");
    plan[3] = 2;
    expect(saucepebbly_approve(TABLE, TABLE_WORDS, SAUCEPEBBLY_OLD, plan, plan_len, report, 2, lists, candidates) == SAUCEPEBBLY_REFUSED, "2 is no truth value");
    expect(plan[3] == 2 && all_untouched(plan, 8, plan_len), "a check never writes");
    printf("yes, no, refused %u %u\n", (unsigned)report[0], (unsigned)report[1]);
}

static void end_otherwise(uint8_t *plan, size_t plan_len) {
    static const int32_t ODD_LOOP[] = {1, 0, 1, 1, 1, 0, 1, 1, 0}; /* 1 :- not 1. */
    uint32_t report[2] = {0, 0};
    memset(plan, UNTOUCHED, plan_len);
    expect(saucepebbly_solve(TABLE, TABLE_WORDS, SAUCEPEBBLY_OLD, 5, plan, plan_len, report, 2, NULL, 0, lists, candidates) == SAUCEPEBBLY_LIMIT, "the limit");
    printf("limit %u %u\n", (unsigned)report[0], (unsigned)report[1]);
    expect(saucepebbly_solve(ODD_LOOP, 9, SAUCEPEBBLY_OLD, 100, plan, plan_len, report, 2, NULL, 0, lists, candidates) == SAUCEPEBBLY_NONE, "none");
    printf("none %u %u\n", (unsigned)report[0], (unsigned)report[1]);
    expect(saucepebbly_solve(TABLE, 4, SAUCEPEBBLY_OLD, 100, plan, plan_len, report, 2, NULL, 0, lists, candidates) == SAUCEPEBBLY_REFUSED, "a word is absent");
    printf("refused %u %u\n", (unsigned)report[0], (unsigned)report[1]);
    expect(saucepebbly_solve(TABLE, TABLE_WORDS, SAUCEPEBBLY_OLD, 100, plan, 255, report, 2, NULL, 0, lists, candidates) == SAUCEPEBBLY_REFUSED, "a short plan buffer");
    printf("refused %u %u\n", (unsigned)report[0], (unsigned)report[1]);
    expect(saucepebbly_solve(NULL, 0, SAUCEPEBBLY_OLD, 100, plan, plan_len, report, 2, NULL, 0, lists, candidates) == SAUCEPEBBLY_REFUSED, "no words");
    printf("refused %u %u\n", (unsigned)report[0], (unsigned)report[1]);
    report[0] = 99;
    expect(saucepebbly_solve(TABLE, 4, SAUCEPEBBLY_OLD, 100, plan, plan_len, report, 1, NULL, 0, lists, candidates) == SAUCEPEBBLY_REFUSED, "a short report");
    expect(report[0] == 99, "a short report is not written");
    expect(all_untouched(plan, 0, plan_len), "only an answer writes the plan");
}

int main(void) {
    uint8_t plan[300];
    memset(plan, UNTOUCHED, sizeof plan);
    solve_it(plan, sizeof plan);
    approve_it(plan, sizeof plan);
    end_otherwise(plan, sizeof plan);
    ask_why(plan, sizeof plan);
    return 0;
}
