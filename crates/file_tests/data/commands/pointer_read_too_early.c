#include "ompc.h"
#include <stdlib.h>
#define N 4
uint64_t sum(const uint64_t *a, uint64_t n) {
    uint64_t s = 0;
    for (uint64_t i = 0; i < n; i++) s += a[i];
    return s;
}
int main(void) {
    uint64_t *cells = malloc(N * sizeof(uint64_t));
#pragma omp target enter data map(alloc: cells[0:N])
#pragma omp target
    for (uint64_t i = 0; i < N; i++) cells[i] = i;
    uint64_t s = sum(cells, N);
    printf("%lu\n", s);
    free(cells);
    return 0;
}
