/* What reading and writing aspif, storing and restoring cost: the time by the length of the text or the bytes. bench/src/stacks.c has the stack.
 *
 *     (cd crates/desk && rt lib)
 *     mkdir -p target/bench
 *     cc -O2 -Iinclude bench/src/aspif_cost.c crates/desk/out/libdesk.a -o target/bench/aspif_cost && target/bench/aspif_cost
 */
#define _POSIX_C_SOURCE 200809L
#include "saucepebbly.h"
#include <stdio.h>
#include <string.h>
#include <time.h>

enum { WORDS = 16384, LONGEST = 1 << 24 };

static char text[LONGEST + 4096];
static size_t length;
static int32_t words[WORDS], table[WORDS];
static size_t table_len;
static uint8_t out[1 << 22];
static size_t stored_len;
static uint16_t lists[SAUCEPEBBLY_LISTS];
static int32_t memory[SAUCEPEBBLY_WORDS];
static uint32_t kind, report[2];

static void *reading(void *unused) {
    kind = saucepebbly_read_aspif((const uint8_t *)text, length, words, WORDS, report, 2);
    return unused;
}

static void *writing(void *unused) {
    kind = saucepebbly_write_aspif(table, table_len, out, sizeof out, report, 2, lists);
    return unused;
}

static void *storing(void *unused) {
    kind = saucepebbly_store(table, table_len, out, sizeof out, report, 2, lists);
    return unused;
}

static void *restoring(void *unused) {
    kind = saucepebbly_restore(out, stored_len, words, WORDS, report, 2, memory, lists);
    return unused;
}

static double seconds(void *(*work)(void *), int times) {
    struct timespec a, b;
    double best = 1e9;
    for (int i = 0; i < times; i++) {
        clock_gettime(CLOCK_MONOTONIC, &a);
        work(NULL);
        clock_gettime(CLOCK_MONOTONIC, &b);
        double t = (double)(b.tv_sec - a.tv_sec) + 1e-9 * (double)(b.tv_nsec - a.tv_nsec);
        best = t < best ? t : best;
    }
    return best;
}

static void add(const char *line) {
    size_t n = strlen(line);
    memcpy(text + length, line, n);
    length += n;
}

/* 64 weight bodies, 900 other rules, and comments up to so many bytes. */
static void make_text(size_t bytes) {
    char line[256];
    length = 0;
    add("asp 1 0 0\n");
    for (int i = 0; i < 964; i++) {
        if (i < 64)
            snprintf(line, sizeof line, "1 0 1 %d 1 7 4 %d 1 %d 2 %d 3 %d 4\n", 128 + i, 1 + i, 2 + i, 3 + i, 4 + i);
        else
            snprintf(line, sizeof line, "1 0 2 %d %d 0 3 %d -%d %d\n", 1 + i % 128, 129 + i % 127, 1 + i % 60, 1 + i % 70, 61 + i % 60);
        add(line);
    }
    while (length + 80 < bytes)
        add("10 a comment of some length, as a partner's tool writes them before each rule\n");
    add("0\n");
}

int main(void) {
    for (size_t bytes = 1 << 16; bytes <= LONGEST; bytes *= 4) {
        make_text(bytes);
        double t = seconds(reading, 5);
        printf("read %zu bytes: kind %u, %u words, %.2f ms, %.1f ns a byte\n", length, (unsigned)kind, (unsigned)report[0], 1e3 * t, 1e9 * t / (double)length);
    }
    make_text(1 << 16);
    reading(NULL);
    int32_t rules = 0;
    for (int step = 1; step <= 4; step++) {
        /* tables without cycles: 16 * step aggregates of every shape, rules over them */
        int32_t *at = table;
        int32_t aggregates = 16 * step;
        rules = 250 * step;
        *at++ = 256;
        *at++ = aggregates;
        for (int32_t j = 0; j < aggregates; j++) {
            *at++ = j % 4;
            *at++ = j / 4 % 2;
            *at++ = 10 + j;
            *at++ = 40;
            for (int32_t e = 1; e <= 40; e++) {
                *at++ = e % 17;
                *at++ = e;
            }
        }
        *at++ = rules;
        for (int32_t r = 0; r < rules; r++) {
            int32_t j = 1 + r % aggregates;
            int32_t rule[] = {1, 65 + r % 190, 0, 0, 1, r % 2 ? j : -j};
            memcpy(at, rule, sizeof rule);
            at += 6;
        }
        table_len = (size_t)(at - table);
        double t = seconds(writing, 5);
        printf("write %zu words: kind %u, %u bytes, %.2f ms, %.1f ns a byte\n", table_len, (unsigned)kind, (unsigned)report[0], 1e3 * t, 1e9 * t / (double)report[0]);
        t = seconds(storing, 5);
        stored_len = report[0];
        printf("store %zu words: kind %u, %u bytes, %.2f ms\n", table_len, (unsigned)kind, (unsigned)report[0], 1e3 * t);
        t = seconds(restoring, 5);
        printf("restore %zu bytes: kind %u, %u words, %.2f ms\n", stored_len, (unsigned)kind, (unsigned)report[0], 1e3 * t);
    }
    return 0;
}
