// OpenMP Examples, target_data: one region of data over many kernels, a sum that goes to the host and back.
#include <stdio.h>
#include "ompc.h"

#define ROWS 12
#define COLS 10

uint64_t Q[ROWS][COLS];

void gramSchmidt(uint64_t Q[][COLS], const int rows, const int cols)
{
    #pragma omp target data map(tofrom: Q[0:rows][0:cols])
    for (int k = 0; k < cols; k++)
    {
        uint64_t tmp = 0;

        #pragma omp target map(tofrom: tmp)
        #pragma omp teams distribute parallel for reduction(+:tmp)
        for (int i = 0; i < rows; i++)
            tmp += (Q[i][k] * Q[i][k]);

        tmp = 1 + tmp % 7;

        #pragma omp target
        #pragma omp teams distribute parallel for
        for (int i = 0; i < rows; i++)
            Q[i][k] *= tmp;
    }
}

int main(void)
{
    for (int i = 0; i < ROWS; i++)
        for (int j = 0; j < COLS; j++)
            Q[i][j] = i * COLS + j;
    gramSchmidt(Q, ROWS, COLS);
    for (int j = 0; j < COLS; j++)
        printf("%lu\n", Q[ROWS - 1][j]);
    return 0;
}
