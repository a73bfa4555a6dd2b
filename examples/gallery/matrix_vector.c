#include "ompc.h"
// The construct is written part by part, a line for each, and calls a function that is declared for the devices.
#define N 24

uint64_t a[N * N], x[N], y[N];

#pragma omp declare target
static uint64_t add(uint64_t sum, uint64_t a, uint64_t x) {
    return sum + a * x;
}
#pragma omp end declare target

int main(void) {
    for (uint64_t i = 0; i < N * N; i++) a[i] = i % 11;
    for (uint64_t i = 0; i < N; i++) x[i] = i % 5;
#pragma omp target map(to: a, x) map(from: y)
#pragma omp teams num_teams(4) thread_limit(8)
#pragma omp distribute parallel for
    for (uint64_t i = 0; i < N; i++) {
        uint64_t sum = 0;
        for (uint64_t j = 0; j < N; j++) sum = add(sum, a[N * i + j], x[j]);
        y[i] = sum;
    }
    for (uint64_t i = 0; i < N; i += 5) printf("%lu\n", y[i]);
    return 0;
}
