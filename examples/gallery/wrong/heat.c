#include "ompc.h"
// Heat in a plate, swept in place: turns that are in any order read what their neighbours write.
#define N 32
#define M 48
#define MIDDLE (M / 2)

uint64_t now[N][M];

void sweep(uint64_t a[N][M]) {
#pragma omp target teams distribute parallel for collapse(2) map(tofrom: a[0:N][0:M])
    for (int i = 1; i < N - 1; i++)
        for (int j = 1; j < M - 1; j++)
            a[i][j] = (a[i - 1][j] + a[i + 1][j] + a[i][j - 1] + a[i][j + 1]) / 4;
}

int main(void) {
    const int steps = 40;
    for (int j = 0; j < M; j++) now[0][j] = 10000;
#pragma omp target data map(tofrom: now)
    for (int t = 0; t < steps; t++) sweep(now);
    for (int i = 0; i < 8; i++) printf("%lu\n", now[i][MIDDLE]);
    return 0;
}
