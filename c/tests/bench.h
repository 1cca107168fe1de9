/* What the tests in document 01's own numbers share: R1's text, and the comparison. */
#ifndef BENCH_H
#define BENCH_H

#include <stdint.h>
#include <stdio.h>

static const char R1[] = "010101\n0200020005\n0300000005\n"
                         "010101\n0200020007\n0300000007\n"
                         "010101\n0200020006\n0300000007\n"
                         "00\n";

/* Whether something was compared and was not as it should be: the exit status. */
static int wrong;

static inline void expect(const char *what, uint64_t is, uint64_t should) {
    if (is != should) {
        printf("%s: %llu, not %llu\n", what, (unsigned long long)is, (unsigned long long)should);
        wrong = 1;
    }
}

#endif
