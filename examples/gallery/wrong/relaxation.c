#include "ompc.h"

// The sweep reads and writes one array, so that a turn may read what another one has written already.

#define N 64
#define STEPS 8

uint64_t heat[N];

int main() {
    uint64_t moved = 0;
    for (int i = 0; i < N; i++)
        heat[i] = i * i % 97;

#pragma omp target map(tofrom: heat, moved)
    for (int t = 0; t < STEPS; t++) {
#pragma omp parallel for
        for (int i = 1; i < N - 1; i++)
            heat[i] = (heat[i - 1] + 2 * heat[i] + heat[i + 1]) / 4;
        {
            heat[0] = heat[1];
            heat[N - 1] = heat[N - 2];
        }
#pragma omp parallel for reduction(+: moved)
        for (int i = 0; i < N; i++)
            moved += heat[i] % 2;
    }

    printf("%lu\n", heat[0]);
    printf("%lu\n", heat[N / 2]);
    printf("%lu\n", moved);
    return 0;
}
