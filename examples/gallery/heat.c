#include "ompc.h"
// Heat in a plate: sweeps from one array to the other, which both stay on the device.
#define N 32
#define M 48
#define MIDDLE (M / 2)

uint64_t now[N][M], next[N][M];

void sweep(uint64_t from[N][M], uint64_t to[N][M]) {
#pragma omp target teams distribute parallel for collapse(2) map(to: from[0:N][0:M]) map(tofrom: to[0:N][0:M])
    for (int i = 1; i < N - 1; i++)
        for (int j = 1; j < M - 1; j++)
            to[i][j] = (from[i - 1][j] + from[i + 1][j] + from[i][j - 1] + from[i][j + 1]) / 4;
}

int main(void) {
    const int steps = 40;
    for (int j = 0; j < M; j++) {
        now[0][j] = 10000;
        next[0][j] = 10000;
    }
#pragma omp target data map(tofrom: now) map(to: next)
    for (int t = 0; t < steps; t += 2) {
        sweep(now, next);
        sweep(next, now);
    }
    for (int i = 0; i < 8; i++) printf("%lu\n", now[i][MIDDLE]);
    return 0;
}
