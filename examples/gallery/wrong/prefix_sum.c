#include "ompc.h"
// The sums of the blocks are made in any order too: a turn reads what the one before it has written.
#define N 1024
#define BLOCK 32
#define BLOCKS (N / BLOCK)

uint64_t x[N], total[BLOCKS];

void scan_blocks(uint64_t *a, uint64_t *t) {
#pragma omp target teams distribute parallel for
    for (uint64_t b = 0; b < BLOCKS; b++) {
        for (uint64_t i = 1; i < BLOCK; i++) a[BLOCK * b + i] += a[BLOCK * b + i - 1];
        t[b] = a[BLOCK * b + BLOCK - 1];
    }
}

void scan_totals(uint64_t *t) {
#pragma omp target teams distribute parallel for
    for (uint64_t b = 1; b < BLOCKS; b++) t[b] += t[b - 1];
}

void add_totals(uint64_t *a, const uint64_t *t) {
#pragma omp target teams distribute parallel for collapse(2)
    for (uint64_t b = 1; b < BLOCKS; b++)
        for (uint64_t i = 0; i < BLOCK; i++) a[BLOCK * b + i] += t[b - 1];
}

int main(void) {
    for (uint64_t i = 0; i < N; i++) x[i] = i % 10;
#pragma omp target data map(tofrom: x) map(alloc: total)
    {
        scan_blocks(x, total);
        scan_totals(total);
        add_totals(x, total);
    }
    for (uint64_t i = 15; i < N; i += 256) printf("%lu\n", x[i]);
    return 0;
}
