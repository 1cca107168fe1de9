/* A sequence of cases on standard input, and lines of hexadecimal on standard output, as the proved programs' inputs and outputs have them. */
#ifndef SEQUENCE_H
#define SEQUENCE_H

#include <stdint.h>
#include <stdio.h>
#include <stdlib.h>

enum { MOST_BYTES = 1 << 20 };

/* The whole input, and how far it has been taken. */
struct sequence {
    uint8_t bytes[MOST_BYTES];
    size_t count, at;
};

static inline void read_sequence(struct sequence *s) {
    s->count = fread(s->bytes, 1, sizeof s->bytes, stdin);
    s->at = 0;
}

/* The next `count` bytes. */
static inline const uint8_t *take(struct sequence *s, size_t count) {
    if (count > s->count - s->at) {
        fputs("the sequence breaks off\n", stderr);
        exit(1);
    }
    s->at += count;
    return s->bytes + s->at - count;
}

/* The next number of `width` bytes, high byte first. */
static inline uint32_t next_number(struct sequence *s, int width) {
    uint32_t n = 0;
    for (int i = 0; i < width; i++) {
        n = n << 8 | *take(s, 1);
    }
    return n;
}

/* The next text; a null pointer for an empty one, as a C host may lend it. */
static inline const uint8_t *next_text(struct sequence *s, size_t count) {
    const uint8_t *text = take(s, count);
    return count == 0 ? NULL : text;
}

/* A number in `width` bytes, high byte first. */
static inline void put(uint64_t n, int width) {
    printf("%0*llx", 2 * width, (unsigned long long)n);
}

#endif
