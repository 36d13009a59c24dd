/* What giving up costs (02, request 13): one search for the rules with heads and one for each constraint, beside one search of the whole table.
 *
 *     (cd crates/dock && rt lib) && (cd crates/desk && rt lib) && mkdir -p target/bench
 *     cc -O2 -Iinclude bench/src/giving_up.c crates/desk/out/libdesk.a crates/dock/out/libdock.a -o target/bench/giving_up && target/bench/giving_up
 */
#define _POSIX_C_SOURCE 200809L
#include "saucepebbly.h"
#include <stdio.h>
#include <string.h>
#include <time.h>

static int32_t words[16384];
static size_t count;
static int32_t constraints;
static uint8_t plan[256];
static uint32_t report[3], dropped[1024];
static uint16_t lists[SAUCEPEBBLY_LISTS];
static uint32_t candidates[SAUCEPEBBLY_CANDIDATES];

static void word(int32_t w) { words[count++] = w; }

/* Each pigeon has a hole, and no two the same; atom holes * (p - 1) + h: pigeon p has hole h. */
static void pigeons(int32_t birds, int32_t holes) {
    count = 0;
    constraints = holes * birds * (birds - 1) / 2;
    word(birds * holes);
    word(0);
    word(birds + constraints);
    for (int32_t p = 0; p < birds; p++) {
        word(holes);
        for (int32_t h = 1; h <= holes; h++)
            word(holes * p + h);
        word(0);
        word(0);
        word(0);
    }
    for (int32_t h = 1; h <= holes; h++)
        for (int32_t p = 0; p < birds; p++)
            for (int32_t q = p + 1; q < birds; q++) {
                int32_t rule[] = {0, 2, holes * p + h, holes * q + h, 0, 0};
                for (int i = 0; i < 6; i++)
                    word(rule[i]);
            }
}

/* Pairs `a | b.`, and constraints that every plan found satisfies: `:- b, c.` with b of one pair and c the second of another. */
static void satisfied(int32_t pairs) {
    count = 0;
    constraints = pairs * (pairs - 1) / 2;
    word(2 * pairs);
    word(0);
    word(pairs + constraints);
    for (int32_t p = 0; p < pairs; p++) {
        int32_t rule[] = {2, 2 * p + 1, 2 * p + 2, 0, 0, 0};
        for (int i = 0; i < 6; i++)
            word(rule[i]);
    }
    for (int32_t p = 0; p < pairs; p++)
        for (int32_t q = p + 1; q < pairs; q++) {
            int32_t rule[] = {0, 2, 2 * p + 2, 2 * q + 2, 0, 0};
            for (int i = 0; i < 6; i++)
                word(rule[i]);
        }
}

static double now(void) {
    struct timespec t;
    clock_gettime(CLOCK_MONOTONIC, &t);
    return (double)t.tv_sec + 1e-9 * (double)t.tv_nsec;
}

static void measure(const char *name) {
    double solving = 1e9, giving = 1e9;
    uint32_t kind = 0, given = 0;
    for (int i = 0; i < 5; i++) {
        double a = now();
        kind = saucepebbly_solve(words, count, SAUCEPEBBLY_OLD, 4294967295u, plan, 256, report, 3, NULL, 0, lists, candidates);
        double b = now();
        given = saucepebbly_relax(words, count, SAUCEPEBBLY_OLD, 4294967295u, dropped, 1024, plan, 256, report, 2, lists, candidates);
        double c = now();
        solving = b - a < solving ? b - a : solving;
        giving = c - b < giving ? c - b : giving;
    }
    printf("%-36s solve: kind %u, %.3f ms; giving up: kind %u, %u of %d constraints dropped, %.3f ms\n", name, (unsigned)kind, 1e3 * solving, (unsigned)given,
           (unsigned)report[0], (int)constraints, 1e3 * giving);
}

int main(void) {
    pigeons(5, 4);
    measure("5 pigeons, 4 holes");
    pigeons(6, 5);
    measure("6 pigeons, 5 holes");
    pigeons(7, 6);
    measure("7 pigeons, 6 holes");
    satisfied(20);
    measure("20 pairs, 190 constraints satisfied");
    satisfied(40);
    measure("40 pairs, 780 constraints satisfied");
    return 0;
}
