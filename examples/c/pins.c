/* A session with pins: a lane is pinned shut, and the plan that is left is shown; then the pins are taken off again. Built and run by examples/test.sh. */
#include <stdio.h>
#include <stdlib.h>
#include <string.h>

#include "saucepebbly.h"

/* Lanes 1, 2 and 3, the early shift 4 and the late shift 5:  1 | 2 | 3.  4 | 5.  :- 1, 5.  (lane 1 is open early only) */
static const int32_t TABLE[] = {
    5, 0, 3, /* atoms, aggregates, rules */
    3, 1, 2, 3, 0, 0, 0, /* one lane */
    2, 4, 5, 0, 0, 0, /* one shift */
    0, 2, 1, 5, 0, 0, /* not lane 1 late */
};
#define TABLE_WORDS (sizeof TABLE / sizeof TABLE[0])

/* The session's memory is the caller's; nothing else is kept between the calls. */
static int32_t session[SAUCEPEBBLY_SESSION_WORDS];

/* Memory that a call works in. */
static uint16_t lists[SAUCEPEBBLY_LISTS];
static uint32_t candidates[SAUCEPEBBLY_CANDIDATES];

static void expect(int is_so, const char *what) {
    if (!is_so) {
        printf("WRONG: %s\n", what);
        exit(1);
    }
}

static void show_plan(const char *pins) {
    static const char *const names[] = {"answer", "none", "limit", "refused"};
    uint8_t plan[256] = {0};
    uint32_t report[2] = {0, 0};
    uint32_t kind = saucepebbly_plan(session, 100, plan, sizeof plan, report, 2, NULL, 0, lists, candidates);
    printf("%-16s %s %u %u", pins, names[kind], (unsigned)report[0], (unsigned)report[1]);
    for (int i = 0; kind == SAUCEPEBBLY_ANSWER && i < TABLE[0]; i++) {
        if (plan[i] == 1) {
            printf("%s%d", i == 0 || memchr(plan, 1, (size_t)i) == NULL ? ": " : " ", i + 1);
        }
    }
    printf("\n");
}

static void pin(uint32_t atom, uint32_t value) {
    uint32_t report[2];
    expect(saucepebbly_pin(session, atom, value, report, 2) == SAUCEPEBBLY_DONE, "the pin is taken");
}

static void unpin(void) {
    uint32_t report[2];
    expect(saucepebbly_unpin(session, report, 2) == SAUCEPEBBLY_DONE, "the pin is taken off");
}

static void show_refusal(const char *what, uint32_t kind, const uint32_t *report) {
    expect(kind == SAUCEPEBBLY_REFUSED, what);
    printf("%-16s refused %u\n", what, (unsigned)report[0]);
}

int main(void) {
    uint32_t report[2] = {0, 0};
    show_plan("never opened"); /* no words: the first is absent */

    expect(saucepebbly_open(TABLE, TABLE_WORDS, SAUCEPEBBLY_OLD, session, report, 2, lists) == SAUCEPEBBLY_DONE, "the table is accepted");
    show_plan("no pins");
    pin(1, 0); /* lane 1 is shut */
    show_plan("1 shut");
    pin(4, 0); /* nobody is there early */
    show_plan("1 and 4 shut");
    unpin();
    unpin();
    show_plan("no pins again");

    pin(1, 1);
    pin(5, 1);
    show_plan("1 and 5 set"); /* the pins alone rule out every plan */
    show_refusal("6", saucepebbly_pin(session, 6, 1, report, 2), report);
    show_refusal("1 again", saucepebbly_pin(session, 1, 0, report, 2), report);
    unpin();
    unpin();
    show_refusal("no pin left", saucepebbly_unpin(session, report, 2), report);
    return 0;
}
