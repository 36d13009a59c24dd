/* The stack of the check and of solve where head cycles are taken (request 14), on 20 pairs that depend on each other: the check with the test in it. mode 0 refuses them.
 *
 *     (cd crates/dock && rt lib) && mkdir -p target/bench
 *     cc -O2 -Iinclude bench/src/test_stack.c crates/dock/out/libdock.a -Wl,-z,now -lpthread -o target/bench/test_stack && target/bench/test_stack
 *
 * Painted as in bench/src/stacks.c. With `-z now`, for else the first call of memcpy is bound on the painted stack, which takes some 2.7 KB of its own. */
#define _POSIX_C_SOURCE 200809L
#include "saucepebbly.h"
#include <pthread.h>
#include <stdio.h>
#include <stdlib.h>
#include <string.h>
enum { SIZE = 2 << 20, PAINT = 0xA5 };
static int32_t words[4096]; static size_t count; static uint32_t mode, kind, report[3]; static uint8_t plan[256], *stack;
static uint16_t lists[SAUCEPEBBLY_LISTS]; static uint32_t candidates[SAUCEPEBBLY_CANDIDATES];
static void *nothing(void *u) { return u; }
static void *approve(void *u) { kind = saucepebbly_approve(words, count, mode, plan, 256, report, 2, lists, candidates); return u; }
static void *solve(void *u) { kind = saucepebbly_solve(words, count, mode, 4294967295u, plan, 256, report, 3, NULL, 0, lists, candidates); return u; }
static size_t used(void *(*w)(void *)) { pthread_attr_t a; pthread_t t; size_t c = 0; pthread_attr_init(&a); pthread_attr_setstack(&a, stack, SIZE); pthread_create(&t, &a, w, NULL); pthread_join(t, NULL); while (c < SIZE && stack[c] == PAINT) c++; memset(stack + c, PAINT, SIZE - c); return SIZE - c; }
int main(void) {
    stack = aligned_alloc(4096, SIZE); memset(stack, PAINT, SIZE); used(nothing); size_t th = used(nothing);
    int32_t *at = words; *at++ = 40; *at++ = 0; *at++ = 60;
    for (int32_t p = 0; p < 20; p++) { int32_t a = 2*p+1, b = a+1, r[] = {2,a,b,0,0,0, 1,a,1,b,0,0, 1,b,1,a,0,0}; memcpy(at, r, sizeof r); at += 18; }
    count = (size_t)(at - words);
    for (int i = 0; i < 40; i++) plan[i] = 1;
    for (int k = 0; k < 2; k++) for (mode = 0; mode < 2; mode++) { size_t b = used(approve) - th; printf("run %d mode %u approve kind %u %zu", k, mode, kind, b); b = used(solve) - th; printf("  solve kind %u %zu\n", kind, b); }
    return 0;
}
