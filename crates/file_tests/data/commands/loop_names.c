#include <stdio.h>
#include "ompc.h"
#define N 8
uint64_t A[N], B[N];

uint64_t total(const uint64_t *a, uint64_t n)
{
    uint64_t s;
    int i;
    s = 0;
    for (i = 0; i < n; i++)
        s += a[i];
    return s;
}

int main(void) {
    int i, j, t;
    uint64_t sum, last;

    for (i = 0; i < N; i++) {
        A[i] = i;
        B[i] = 0;
    }
    #pragma omp target data map(to: A[0:N]) map(tofrom: B[0:N])
    for (t = 0; t < 3; t++) {
        #pragma omp target teams distribute parallel for private(j)
        for (i = 0; i < N; i++)
            for (j = 0; j < N; j++)
                B[i] += A[j] * i;
    }
    sum = total(B, N);
    last = B[N - 1];
    printf("%lu\n", sum);
    printf("%lu\n", last);
    return 0;
}
