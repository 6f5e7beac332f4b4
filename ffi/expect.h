/* Answers that the programs here want: one that is another is printed, and the program ends with status 1. */
#ifndef EXPECT_H
#define EXPECT_H

#include <stdbool.h>
#include <stdint.h>
#include <stdio.h>

static bool is_wrong;

static inline void expect(const char *what, uint32_t number, uint32_t wanted) {
    if (number != wanted) {
        printf("%s: %u, and not %u\n", what, number, wanted);
        is_wrong = true;
    }
}

#endif
