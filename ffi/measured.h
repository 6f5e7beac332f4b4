/* What programs that measure share: a call that has to be answered R10_OK, and the time that passes. A program says `#define _GNU_SOURCE` before its first
 * include. */
#ifndef MEASURED_H
#define MEASURED_H

#include <stdint.h>
#include <stdio.h>
#include <stdlib.h>
#include <time.h>

#include "r10.h"

static inline void must(const char *what, uint32_t number) {
    if (number != R10_OK) {
        printf("%s: refused %u, %s\n", what, number, r10_strerror(number));
        exit(1);
    }
}

static inline double seconds(void) {
    struct timespec now;
    clock_gettime(CLOCK_MONOTONIC, &now);
    return (double)now.tv_sec + (double)now.tv_nsec / 1e9;
}

#endif
