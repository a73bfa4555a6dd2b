#include "ompc.h"
#include <stdlib.h>
// How often each value stands in the data, and their sum: what all turns update, in any order.
#define N 4096
#define BINS 16

uint64_t count(const uint64_t *data, uint64_t *bins) {
    uint64_t sum = 0;
#pragma omp target teams distribute parallel for map(to: data[0:N]) map(tofrom: bins[0:BINS]) reduction(+: sum)
    for (int i = 0; i < N; i++) {
        sum += data[i];
#pragma omp atomic
        bins[data[i] % BINS]++;
    }
    return sum;
}

int main(void) {
    uint64_t *data = malloc(N * sizeof(uint64_t));
    uint64_t *bins = calloc(BINS, sizeof(uint64_t));
    for (uint64_t i = 0; i < N; i++) data[i] = i * i % 37;
    uint64_t sum = count(data, bins);
    for (int b = 0; b < BINS; b++) printf("%lu\n", bins[b]);
    printf("%lu\n", sum);
    free(bins);
    free(data);
    return 0;
}
