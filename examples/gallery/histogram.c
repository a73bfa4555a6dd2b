#include "ompc.h"
#include <stdlib.h>
// A histogram: each part of the data counts into bins of its own, and the bins are added up behind it.
#define N 4096
#define BINS 16
#define PARTS 8

void count(const uint64_t *data, uint64_t *bins) {
#pragma omp target teams distribute parallel for map(to: data[0:N]) map(tofrom: bins[0:PARTS * BINS])
    for (uint64_t p = 0; p < PARTS; p++)
        for (uint64_t i = 0; i < N / PARTS; i++)
            bins[BINS * p + data[N / PARTS * p + i] % BINS]++;
}

int main(void) {
    uint64_t *data = malloc(N * sizeof(uint64_t));
    uint64_t *bins = calloc(PARTS * BINS, sizeof(uint64_t));
    for (uint64_t i = 0; i < N; i++) data[i] = i * i % 37;
    count(data, bins);
    for (uint64_t b = 0; b < BINS; b++) {
        uint64_t sum = 0;
        for (uint64_t p = 0; p < PARTS; p++) sum += bins[BINS * p + b];
        printf("%lu\n", sum);
    }
    free(bins);
    free(data);
    return 0;
}
