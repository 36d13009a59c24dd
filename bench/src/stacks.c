/* The stack of each C entry at its deepest, over texts in the form of crates/run_texts/stdin (four bytes of length, low byte first, then limit and words), over a
 * table with aggregates near the limits, and over 256 atoms that each support themselves, so that all are chosen before the final test fails.
 *
 *     (cd crates/dock && rt lib) && (cd crates/desk && rt lib) && mkdir -p target/bench
 *     cc -O2 -Iinclude bench/src/stacks.c crates/desk/out/libdesk.a crates/dock/out/libdock.a -lpthread -o target/bench/stacks
 *     target/bench/stacks <crates/run_texts/stdin
 *
 * The stack of a thread is painted before the call; what has lost its paint after it was used, less what a thread uses that does nothing. */
#define _POSIX_C_SOURCE 200809L
#include "saucepebbly.h"
#include <pthread.h>
#include <stdio.h>
#include <stdlib.h>
#include <string.h>

enum { SIZE = 2 << 20, PAINT = 0xA5, WORDS = 16384, TEXT = 1 << 21, ROWS = 16 };

static int32_t words[WORDS + 1], back[WORDS], memory[WORDS], session[SAUCEPEBBLY_SESSION_WORDS];
static size_t count;
static uint32_t mode, limit, report[4], dropped[1024];
static uint8_t plan[256], rows[256 * ROWS], text[TEXT];
static size_t text_len;
static uint16_t lists[SAUCEPEBBLY_LISTS], whys[512];
static uint32_t candidates[SAUCEPEBBLY_CANDIDATES];

static void *nothing(void *unused) { return unused; }

static void *solve(void *unused) {
    saucepebbly_solve(words, count, mode, limit, plan, 256, report, 3, whys, 512, lists, candidates);
    return unused;
}

static void *approve(void *unused) {
    saucepebbly_approve(words, count, mode, plan, 256, report, 2, lists, candidates);
    return unused;
}

static void *plain(void *unused) {
    saucepebbly_plain(words, count, mode, limit < 1000 ? limit : 1000, plan, 256, report, 2);
    return unused;
}

static void *list(void *unused) {
    saucepebbly_list(words, count, mode, limit < 1000 ? limit : 1000, rows, sizeof rows, report, 4, lists, candidates);
    return unused;
}

static void *relax(void *unused) {
    saucepebbly_relax(words, count, mode, limit < 100 ? limit : 100, dropped, 1024, plan, 256, report, 2, lists, candidates);
    return unused;
}

static void *open_session(void *unused) {
    saucepebbly_open(words, count, mode, session, report, 2, lists);
    return unused;
}

static void *pin(void *unused) {
    saucepebbly_pin(session, 1, 1, report, 2);
    return unused;
}

static void *plan_session(void *unused) {
    saucepebbly_plan(session, limit, plan, 256, report, 3, whys, 512, lists, candidates);
    return unused;
}

static void *unpin(void *unused) {
    saucepebbly_unpin(session, report, 2);
    return unused;
}

static void *write_aspif(void *unused) {
    text_len = saucepebbly_write_aspif(words, count, text, TEXT, report, 2, lists) == SAUCEPEBBLY_WROTE ? report[0] : 0;
    return unused;
}

static void *read_aspif(void *unused) {
    saucepebbly_read_aspif(text, text_len, back, WORDS, report, 2);
    return unused;
}

static void *store(void *unused) {
    text_len = saucepebbly_store(words, count, text, TEXT, report, 2, lists) == SAUCEPEBBLY_WROTE ? report[0] : 0;
    return unused;
}

static void *restore(void *unused) {
    saucepebbly_restore(text, text_len, back, WORDS, report, 2, memory, lists);
    return unused;
}

static struct {
    const char *name;
    void *(*work)(void *);
    int modes; /* whether the call has a mode */
    size_t most[2];
} entries[] = {
    {"solve", solve, 1, {0}},        {"approve", approve, 1, {0}},
    {"plain", plain, 1, {0}},        {"list", list, 1, {0}},
    {"open", open_session, 1, {0}},  {"pin", pin, 0, {0}},
    {"plan", plan_session, 1, {0}},  {"unpin", unpin, 0, {0}},
    {"relax", relax, 1, {0}},
    {"write_aspif", write_aspif, 0, {0}}, {"read_aspif", read_aspif, 0, {0}},
    {"store", store, 0, {0}},        {"restore", restore, 0, {0}},
};

static uint8_t *stack;

static size_t used(void *(*work)(void *)) {
    pthread_attr_t attributes;
    pthread_t thread;
    size_t clean = 0;
    pthread_attr_init(&attributes);
    pthread_attr_setstack(&attributes, stack, SIZE);
    pthread_create(&thread, &attributes, work, NULL);
    pthread_join(thread, NULL);
    while (clean < SIZE && stack[clean] == PAINT)
        clean++;
    memset(stack + clean, PAINT, SIZE - clean);
    return SIZE - clean;
}

static void measure(size_t thread) {
    for (mode = 0; mode < 2; mode++)
        for (size_t i = 0; i < sizeof entries / sizeof *entries; i++) {
            size_t bytes = used(entries[i].work) - thread;
            if (entries[i].most[mode] < bytes)
                entries[i].most[mode] = bytes;
        }
}

static void self_supporting(void) {
    int32_t *at = words;
    *at++ = 256;
    *at++ = 0;
    *at++ = 256;
    for (int32_t atom = 1; atom <= 256; atom++) {
        int32_t rule[] = {1, atom, 1, atom, 0, 0};
        memcpy(at, rule, sizeof rule);
        at += 6;
    }
    count = (size_t)(at - words);
    limit = 256;
}

static void with_aggregates(void) {
    int32_t *at = words;
    *at++ = 256;
    *at++ = 64;
    for (int32_t j = 0; j < 64; j++) {
        int32_t head[] = {j % 4, j / 4 % 2, 10 + j, 40};
        memcpy(at, head, sizeof head);
        at += 4;
        for (int32_t e = 1; e <= 40; e++) {
            *at++ = e % 17;
            *at++ = e;
        }
    }
    *at++ = 1000;
    for (int32_t r = 0; r < 1000; r++) {
        int32_t j = 1 + r % 64;
        int32_t rule[] = {1, 65 + r % 190, 0, 0, 1, r % 2 ? j : -j};
        memcpy(at, rule, sizeof rule);
        at += 6;
    }
    count = (size_t)(at - words);
    limit = 256;
}

/* One text from standard input: its numbers, as far as they are numbers. */
static int next_text(void) {
    static char line[70000];
    uint8_t n[4];
    if (fread(n, 1, 4, stdin) < 4)
        return 0;
    size_t length = n[0] | (size_t)n[1] << 8 | (size_t)n[2] << 16 | (size_t)n[3] << 24;
    if (sizeof line <= length || fread(line, 1, length, stdin) < length)
        return 0;
    line[length] = 0;
    char *at = line, *end;
    limit = (uint32_t)strtoul(at, &end, 10);
    for (count = 0; count <= WORDS; count++) {
        at = end;
        long word = strtol(at, &end, 10);
        if (end == at)
            break;
        words[count] = (int32_t)word;
    }
    return 1;
}

int main(void) {
    stack = aligned_alloc(4096, SIZE);
    memset(stack, PAINT, SIZE);
    used(nothing);
    size_t thread = used(nothing);
    size_t texts = 0;
    self_supporting();
    measure(thread);
    with_aggregates();
    measure(thread);
    for (; next_text(); texts++)
        measure(thread);
    printf("peak stack over %zu texts and two tables, bytes\n", texts);
    for (size_t i = 0; i < sizeof entries / sizeof *entries; i++)
        if (entries[i].modes)
            printf("%-12s %8zu   with head cycles %8zu\n", entries[i].name, entries[i].most[0], entries[i].most[1]);
        else
            printf("%-12s %8zu\n", entries[i].name, entries[i].most[0]);
    return 0;
}
