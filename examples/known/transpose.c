// A matrix is transposed, and then each of its tiles: a turn finds its row and its column by temporaries, as kernels do whose
// turns are counted by one number.
#include <stdio.h>
#include "ompc.h"

#define N 32
#define TILE 8

uint64_t in[N * N], out[N * N], tiles[N * N];

int main(void)
{
    for (int i = 0; i < N * N; i++)
        in[i] = i * 37 % 1009;

    #pragma omp target data map(to: in) map(from: out, tiles)
    {
        #pragma omp target teams distribute parallel for
        for (int i = 0; i < N * N; i++) {
            int row = i / N;
            int col = i % N;
            out[col * N + row] = in[i];
        }

        #pragma omp target teams distribute parallel for collapse(2)
        for (int t = 0; t < (N / TILE) * (N / TILE); t++)
            for (int k = 0; k < TILE * TILE; k++) {
                int first = t / (N / TILE) * TILE * N + t % (N / TILE) * TILE;
                int row = k / TILE, col = k % TILE;
                tiles[first + col * N + row] = out[first + row * N + col];
            }
    }

    uint64_t s = 0;
    for (int i = 0; i < N; i++)
        s += out[i * N + 1] * (i + 1) + tiles[i * N + 9] * (i + 3);
    printf("%lu\n", s);
    printf("%lu\n", tiles[5 * N + 6]);
    return 0;
}
