#include "ompc.h"
// The border cell of the second device is brought to the host, and goes no further.
#define N 32
#define HALF (N / 2)
#define STEPS 4

uint64_t a[N], b[N];

void sweep(const uint64_t *from, uint64_t *to) {
#pragma omp target teams distribute parallel for nowait map(present, alloc: from[0:HALF + 1], to[0:HALF + 1])
    for (uint64_t i = 1; i < HALF; i++) to[i] = (from[i - 1] + 2 * from[i] + from[i + 1]) / 4;
#pragma omp target teams distribute parallel for nowait device(1) map(present, alloc: from[HALF - 1:HALF + 1], to[HALF - 1:HALF + 1])
    for (uint64_t i = HALF; i < N - 1; i++) to[i] = (from[i - 1] + 2 * from[i] + from[i + 1]) / 4;
#pragma omp taskwait
}

void exchange(uint64_t *x) {
#pragma omp target update from(x[HALF - 1:1])
#pragma omp target update to(x[HALF - 1:1]) device(1)
#pragma omp target update from(x[HALF:1]) device(1)
}

int main(void) {
    for (uint64_t i = 0; i < N; i++) {
        a[i] = 1000 * (i % 5);
        b[i] = a[i];
    }
#pragma omp target enter data map(to: a[0:HALF + 1], b[0:HALF + 1])
#pragma omp target enter data map(to: a[HALF - 1:HALF + 1], b[HALF - 1:HALF + 1]) device(1)
    for (uint64_t t = 0; t < STEPS; t += 2) {
        sweep(a, b);
        exchange(b);
        sweep(b, a);
        exchange(a);
    }
#pragma omp target update from(a[0:HALF])
#pragma omp target update from(a[HALF:HALF]) device(1)
#pragma omp target exit data map(release: a[0:HALF + 1], b[0:HALF + 1])
#pragma omp target exit data map(release: a[HALF - 1:HALF + 1], b[HALF - 1:HALF + 1]) device(1)
    for (uint64_t i = 1; i < N; i += 6) printf("%lu\n", a[i]);
    return 0;
}
