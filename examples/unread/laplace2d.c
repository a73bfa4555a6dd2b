/* Laplace 2D, Jacobi (NVIDIA / OLCF tutorial), scaled whole numbers */
#include <stdio.h>
#include <stdint.h>
#include <stdlib.h>
#include <string.h>

#define NN 64
#define NM 64
#define MAX(a, b) ((a) > (b) ? (a) : (b))
#define ABSDIFF(a, b) ((a) > (b) ? (a) - (b) : (b) - (a))

uint64_t A[NN][NM];
uint64_t Anew[NN][NM];

int main(int argc, char** argv)
{
    const int n = NN;
    const int m = NM;
    const int iter_max = 200;

    const uint64_t tol = 10;
    uint64_t error = 1000000;

    memset(A, 0, n * m * sizeof(uint64_t));
    memset(Anew, 0, n * m * sizeof(uint64_t));

    for (int j = 0; j < n; j++)
    {
        A[j][0]    = 1000000;
        Anew[j][0] = 1000000;
    }

    int iter = 0;

    #pragma omp target data map(alloc:Anew) map(A)
    while ( error > tol && iter < iter_max )
    {
        error = 0;

        #pragma omp target teams distribute parallel for reduction(max:error) collapse(2) map(error)
        for( int j = 1; j < n-1; j++)
        {
            for( int i = 1; i < m-1; i++ )
            {
                Anew[j][i] = ( A[j][i+1] + A[j][i-1]
                             + A[j-1][i] + A[j+1][i]) / 4;
                error = MAX( error, ABSDIFF(Anew[j][i], A[j][i]));
            }
        }

        #pragma omp target teams distribute parallel for collapse(2)
        for( int j = 1; j < n-1; j++)
        {
            for( int i = 1; i < m-1; i++ )
            {
                A[j][i] = Anew[j][i];
            }
        }

        if(iter % 100 == 0) printf("%lu\n", error);

        iter++;
    }

    printf("%d\n", iter);
    printf("%lu\n", error);
    printf("%lu\n", A[32][32]);
    return 0;
}
