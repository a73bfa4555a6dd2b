#include "ompc.h"
// The second buffer is not brought to the device: its borders are nothing there.
#define N 16
#define STEPS 10

void sweep(const uint64_t *from, uint64_t *to) {
#pragma omp target teams distribute parallel for collapse(2)
    for (uint64_t i = 1; i < N - 1; i++)
        for (uint64_t j = 1; j < N - 1; j++)
            to[N * i + j] = (from[N * (i - 1) + j] + from[N * (i + 1) + j] + from[N * i + j - 1] + from[N * i + j + 1]) / 4;
}

uint64_t now[N * N], next[N * N];

int main(void) {
    for (uint64_t j = 0; j < N; j++) {
        now[j] = 1000000;
        next[j] = 1000000;
    }
#pragma omp target data map(tofrom: now) map(alloc: next)
    for (uint64_t t = 0; t < STEPS; t += 2) {
        sweep(now, next);
        sweep(next, now);
    }
    for (uint64_t i = 0; i < N; i += 3) printf("%lu\n", now[N * i + N / 2]);
    return 0;
}
