/* The search where head cycles are taken (request 14), on 40 atoms in 20 pairs that depend on each other: time and counts. bench/src/stacks.c has the stack.
 *
 *     (cd crates/dock && rt lib)
 *     cc -O2 -Iinclude bench/src/cycles.c crates/dock/out/libdock.a -o target/bench/cycles && target/bench/cycles
 *
 * Both tables have, of each pair, `a | b. a :- b. b :- a.`: the one answer set has all 40 atoms, and the test has to show that it has no smaller model. In the second
 * table 20 atoms more are guessed, and a constraint leaves the last of the guesses only. The last line is what the test takes beyond the foundedness
 * test: the same table, without its head cycles, in both modes. */
#include "saucepebbly.h"
#include <stdio.h>
#include <string.h>
#include <time.h>

enum { PAIRS = 20 };

static int32_t words[4096];
static size_t count;
static uint32_t mode, kind, report[3];
static uint8_t plan[256];
static uint16_t lists[SAUCEPEBBLY_LISTS];
static uint32_t candidates[SAUCEPEBBLY_CANDIDATES];

static void put(int n, const int32_t *list) {
    words[count++] = n;
    for (int i = 0; i < n; i++)
        words[count++] = list[i];
}

static void rule(int heads, const int32_t *head, int positive, const int32_t *body) {
    put(heads, head);
    put(positive, body);
    put(0, head);
    put(0, head);
}

/* The pairs, with their cycles or without the rules that make them; then `guesses` pairs of which one is true. */
static void make(int cyclic, int guesses) {
    count = 0;
    words[count++] = 2 * (PAIRS + guesses);
    words[count++] = 0;
    words[count++] = PAIRS * (cyclic ? 3 : 1) + guesses + (guesses ? 1 : 0);
    for (int32_t i = 0; i < PAIRS; i++) {
        int32_t a = 2 * (guesses + i) + 1, pair[2] = {a, a + 1}, b = a + 1;
        rule(2, pair, 0, pair);
        if (cyclic) {
            rule(1, &a, 1, &b);
            rule(1, &b, 1, &a);
        }
    }
    for (int32_t i = 0; i < guesses; i++) {
        int32_t pair[2] = {2 * i + 1, 2 * i + 2};
        rule(2, pair, 0, pair);
    }
    if (guesses) {
        int32_t first = 1;
        rule(0, &first, 1, &first);
    }
}

static void *solve(void *unused) {
    kind = saucepebbly_solve(words, count, mode, 4294967295u, plan, sizeof plan, report, 3, NULL, 0, lists, candidates);
    return unused;
}

static void *approve(void *unused) {
    kind = saucepebbly_approve(words, count, mode, plan, sizeof plan, report, 2, lists, candidates);
    return unused;
}

static double micros(void *(*work)(void *)) {
    double least = 1e18;
    for (int i = 0; i < 20; i++) {
        struct timespec begin, end;
        clock_gettime(CLOCK_MONOTONIC, &begin);
        work(NULL);
        clock_gettime(CLOCK_MONOTONIC, &end);
        double t = (double)(end.tv_sec - begin.tv_sec) * 1e6 + (double)(end.tv_nsec - begin.tv_nsec) / 1e3;
        if (t < least)
            least = t;
    }
    return least;
}

static void tell(const char *name) {
    double time = micros(solve);
    printf("%-44s solve: kind %u, choices %u, skips %u, passes %u, %.1f us\n", name, kind, report[0], report[1], report[2], time);
    if (kind != SAUCEPEBBLY_ANSWER)
        return;
    time = micros(approve);
    printf("%-44s check: kind %u, %.1f us\n", "", kind, time);
}

int main(void) {
    mode = SAUCEPEBBLY_HEAD_CYCLES;
    make(1, 0);
    tell("20 pairs with head cycles");
    make(1, 20);
    tell("the same with 20 guesses before");
    make(0, 0);
    tell("20 pairs without, head cycles taken");
    mode = SAUCEPEBBLY_OLD;
    tell("20 pairs without, old mode");
    return 0;
}
