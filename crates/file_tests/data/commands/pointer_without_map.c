#include "ompc.h"
#include <stdlib.h>
#define N 8
void twice(uint64_t *a, uint64_t n) {
#pragma omp target teams distribute parallel for
    for (uint64_t i = 0; i < n; i++) a[i] *= 2;
}
int main(void) {
    uint64_t *x = malloc(N * sizeof(uint64_t));
    for (uint64_t i = 0; i < N; i++) x[i] = i;
    twice(x, N);
    printf("%lu\n", x[3]);
    free(x);
    return 0;
}
