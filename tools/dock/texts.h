/* Texts, as crates/run_texts has them: the length in four bytes, then the bytes. */
#ifndef TEXTS_H
#define TEXTS_H

#include "runner.h"

static uint8_t text[65537];

static int parts(uint8_t b) {
    return b == ' ' || b == '\n';
}

/* The limit and the words of a text; or, returned as 12 or 13, why it has none, with the place. */
static uint32_t read_text(size_t n, int32_t *words, uint32_t *limit, size_t *count, uint32_t *place) {
    size_t number = 0;
    *count = 0;
    *place = 0;
    if (n > 65536)
        return 13;
    for (size_t i = 0;;) {
        while (i < n && parts(text[i]))
            i++;
        if (i == n)
            break;
        int minus = text[i] == '-', digits = 0, odd = 0;
        long value = 0;
        for (i += (size_t)minus; i < n && !parts(text[i]); i++) {
            odd |= text[i] < '0' || text[i] > '9';
            digits = 1;
            value = value * 10 + (text[i] - '0');
            if (value > 1l << 40)
                value = 1l << 40;
        }
        value = minus ? -value : value;
        int within = number == 0 ? value >= 0 && value <= 4294967295l : value >= -2147483648l && value <= 2147483647l;
        if (odd || !digits || !within) {
            *place = (uint32_t)number;
            return 12;
        }
        if (number == 0)
            *limit = (uint32_t)value;
        else
            words[(*count)++] = (int32_t)value;
        number++;
    }
    return number == 0 ? 12 : 0;
}

/* The next text, and its length; what is behind 65,537 bytes is passed over. */
static int next_text(size_t *n) {
    *n = 0;
    for (int i = 0; i < 4; i++) {
        int b = next_byte();
        if (b < 0)
            return 0;
        *n |= (size_t)b << (8 * i);
    }
    for (size_t i = 0; i < *n; i++) {
        int b = next_byte();
        if (i < sizeof text)
            text[i] = (uint8_t)b;
    }
    return 1;
}

#endif
