#include <stdint.h>
#include <stdio.h>
#define N 4
#define IDX(i, j) ((i) * N + (j))
#define MAX(a, b) ((a) > (b) ? (a) : (b))
#define LARGEST(a, b, c) MAX(MAX(a, b), c)
#define STEP(x) x = (x) * 3 + 1 // no brackets around it
#define NOTHING() 0
uint64_t A[N * N], B[N * N];
int main(void) {
    uint64_t x = 1;
    for (int i = 0; i < N; i++)
        for (int j = 0; j < N; j++) A[IDX(i, j)] = (IDX(j, i) * 7) % 11;
    #pragma omp target teams distribute parallel for collapse(2) map(to: A) map(from: B)
    for (int i = 0; i < N; i++)
        for (int j = 0; j < N; j++)
            B[IDX(i, j)] = LARGEST(A[IDX(i, j)], A[IDX(j, i)], A[IDX(i, (j + 1) % N)]);
    for (int k = 0; k < N; k++) printf("%lu\n", B[IDX(k, N - 1 - k)]);
    STEP(x);
    STEP(x);
    printf("%lu\n", x + NOTHING());
    return 0;
}
