// A median filter over windows of 3 by 3 cells, as of images with noise: each turn of the kernel has its window in a local
// array, which a network of comparisons sorts.
#include <stdio.h>
#include "ompc.h"

#define N 24

uint64_t in[N][N], out[N][N];

int main(void)
{
    int i, j;

    for (i = 0; i < N; i++)
        for (j = 0; j < N; j++)
            in[i][j] = (i * i + 7 * j + i * j * 3) % 32;
    for (i = 0; i < N; i++)
        in[i][5] = 999 - i;

    #pragma omp target teams distribute parallel for collapse(2) map(to: in) map(tofrom: out)
    for (i = 1; i < N - 1; i++)
        for (j = 1; j < N - 1; j++) {
            uint64_t w[9];
            for (int r = 0; r < 3; r++)
                for (int c = 0; c < 3; c++)
                    w[3 * r + c] = in[i + r - 1][j + c - 1];
            for (int p = 0; p < 5; p++)
                for (int q = 0; q < 8 - p; q++)
                    if (w[q] > w[q + 1]) {
                        uint64_t held = w[q];
                        w[q] = w[q + 1];
                        w[q + 1] = held;
                    }
            out[i][j] = w[4];
        }

    uint64_t sum = 0, high = 0;
    for (i = 0; i < N; i++)
        for (j = 0; j < N; j++) {
            sum += out[i][j];
            if (out[i][j] > high)
                high = out[i][j];
        }
    printf("%lu\n", sum);
    printf("%lu\n", high);
    return 0;
}
