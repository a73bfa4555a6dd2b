#include "ompc.h"
#include <stdlib.h>
// Each part of the data counts into the same bins: two turns add to one of them.
#define N 4096
#define BINS 16
#define PARTS 8

void count(const uint64_t *data, uint64_t *bins) {
#pragma omp target teams distribute parallel for map(to: data[0:N]) map(tofrom: bins[0:BINS])
    for (uint64_t p = 0; p < PARTS; p++)
        for (uint64_t i = 0; i < N / PARTS; i++)
            bins[data[N / PARTS * p + i] % BINS]++;
}

int main(void) {
    uint64_t *data = malloc(N * sizeof(uint64_t));
    uint64_t *bins = calloc(BINS, sizeof(uint64_t));
    for (uint64_t i = 0; i < N; i++) data[i] = i * i % 37;
    count(data, bins);
    for (uint64_t b = 0; b < BINS; b++) {
        printf("%lu\n", bins[b]);
    }
    free(bins);
    free(data);
    return 0;
}
