#include "ompc.h"
#include <stdlib.h>
// The caller enters one of the arrays alone, so the routine does not find the other.
#define N 128

void axpy(uint64_t k, const uint64_t *x, uint64_t *y) {
#pragma omp target teams distribute parallel for map(present, to: x[0:N]) map(present, tofrom: y[0:N])
    for (uint64_t i = 0; i < N; i++) y[i] += k * x[i];
}

void scale(uint64_t k, uint64_t *x) {
#pragma omp target teams distribute parallel for map(present, tofrom: x[0:N])
    for (uint64_t i = 0; i < N; i++) x[i] *= k;
}

int main(void) {
    uint64_t *x = malloc(N * sizeof(uint64_t));
    uint64_t *y = malloc(N * sizeof(uint64_t));
    for (uint64_t i = 0; i < N; i++) {
        x[i] = i;
        y[i] = 2 * i;
    }
#pragma omp target data map(tofrom: y[0:N])
    {
        axpy(3, x, y);
        scale(2, y);
        axpy(1, x, y);
    }
    for (uint64_t i = 0; i < N; i += 25) printf("%lu\n", y[i]);
    free(y);
    free(x);
    return 0;
}
