// PolyBench lu: L and U stand where the matrix was. Numbers are modulo 2^64, where a pivot has an inverse if it is odd.
#include <stdio.h>
#include "ompc.h"

#define N 12

uint64_t A[N][N], B[N][N];

// each step doubles how many of the low bits are right
uint64_t inverse(uint64_t a)
{
    uint64_t x = a;
    for (int k = 0; k < 5; k++)
        x *= 2 - a * x;
    return x;
}

void lu(uint64_t A[N][N])
{
    for (int k = 0; k < N; k++)
    {
        uint64_t pivot = inverse(A[k][k]);

        #pragma omp target teams distribute parallel for
        for (int i = k + 1; i < N; i++)
        {
            A[i][k] *= pivot;
            for (int j = k + 1; j < N; j++)
                A[i][j] -= A[i][k] * A[k][j];
        }
        #pragma omp target update from(A[0:N][0:N])
    }
}

int main(void)
{
    uint64_t sum, wrong = 0;

    for (int i = 0; i < N; i++)
        for (int j = 0; j < N; j++)
        {
            A[i][j] = 2 * ((i * 7 + j * 3) % 11);
            if (i == j) A[i][j]++;
            B[i][j] = A[i][j];
        }

    #pragma omp target data map(tofrom: A)
    {
        lu(A);
    }

    // in how many cells L times U is not the matrix
    for (int i = 0; i < N; i++)
        for (int j = 0; j < N; j++)
        {
            sum = 0;
            for (int k = 0; k <= i; k++)
                if (k == i)
                    sum += A[i][j] * (j >= i);
                else if (k <= j)
                    sum += A[i][k] * A[k][j];
            if (sum != B[i][j]) wrong++;
        }
    printf("%lu\n", wrong);
    for (int i = 0; i < N; i += 3)
        for (int j = 0; j <= i; j += 3)
            printf("%lu\n", A[i][j]);
    return 0;
}
