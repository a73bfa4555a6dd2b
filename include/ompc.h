/* What a source of ompc uses beside the language itself, for a C compiler: `print` and `read`.
 *
 *     ompc check program.c
 *     cc -O2 -I include -fopenmp program.c
 *
 * ompc passes over lines of `#include`, and knows both names by itself. */
#ifndef OMPC_H
#define OMPC_H

#include <inttypes.h>
#include <stdint.h>
#include <stdio.h>

/* Writes the decimal text of a number and a line feed. */
static inline void print(uint64_t number) { printf("%" PRIu64 "\n", number); }

/* The next number of standard input; 0 past its end. */
static inline uint64_t read(void) {
    uint64_t number = 0;
    return scanf("%" SCNu64, &number) == 1 ? number : 0;
}

#endif
