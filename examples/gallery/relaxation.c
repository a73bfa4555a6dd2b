#include "ompc.h"

// A bar relaxes in one target: its loop over time has a construct for each sweep, and a block for the ends between two.

#define N 64
#define STEPS 8

uint64_t heat[N], next[N];

int main() {
    uint64_t moved = 0;
    for (int i = 0; i < N; i++)
        heat[i] = i * i % 97;

#pragma omp target map(tofrom: heat, moved) map(alloc: next)
    for (int t = 0; t < STEPS; t++) {
#pragma omp parallel for
        for (int i = 1; i < N - 1; i++)
            next[i] = (heat[i - 1] + 2 * heat[i] + heat[i + 1]) / 4;
        {
            next[0] = next[1];
            next[N - 1] = next[N - 2];
        }
#pragma omp parallel for reduction(+: moved)
        for (int i = 0; i < N; i++)
            moved += heat[i] != next[i];
#pragma omp parallel for
        for (int i = 0; i < N; i++)
            heat[i] = next[i];
    }

    printf("%lu\n", heat[0]);
    printf("%lu\n", heat[N / 2]);
    printf("%lu\n", moved);
    return 0;
}
