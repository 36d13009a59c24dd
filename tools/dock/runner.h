/* What the runners of this folder have in common: the library's header without the C library's, bytes from standard input, text and numbers to standard output. */
#ifndef RUNNER_H
#define RUNNER_H

#define SAUCEPEBBLY_TYPES_GIVEN
typedef unsigned long size_t;
typedef int int32_t;
typedef unsigned char uint8_t;
typedef unsigned short uint16_t;
typedef unsigned int uint32_t;
#include "saucepebbly.h"

long read(int, void *, size_t);
long write(int, const void *, size_t);

/* ---- input and output */

static uint8_t in[65536];
static size_t in_at, in_end;

static int next_byte(void) {
    if (in_at == in_end) {
        long n = read(0, in, sizeof in);
        if (n <= 0)
            return -1;
        in_end = (size_t)n;
        in_at = 0;
    }
    return in[in_at++];
}

/* A small number in one byte, or 255 and the four bytes of any other. */
static inline int next_number(long *value) {
    int first = next_byte();
    if (first < 0)
        return 0;
    if (first < 255) {
        *value = first - 4;
        return 1;
    }
    uint32_t bits = 0;
    for (int i = 0; i < 4; i++)
        bits |= (uint32_t)next_byte() << (8 * i);
    *value = (int32_t)bits;
    return 1;
}

static uint8_t out[65536];
static size_t out_end;

static void flush(void) {
    size_t i = 0;
    while (i < out_end) {
        long n = write(1, out + i, out_end - i);
        if (n <= 0)
            break;
        i += (size_t)n;
    }
    out_end = 0;
}

static void put(char c) {
    if (out_end == sizeof out)
        flush();
    out[out_end++] = (uint8_t)c;
}

static void put_text(const char *s) {
    while (*s)
        put(*s++);
}

static void put_number(unsigned long n) {
    char digits[20];
    int k = 0;
    do {
        digits[k++] = (char)('0' + n % 10);
        n /= 10;
    } while (n);
    put(' ');
    while (k)
        put(digits[--k]);
}

#endif
