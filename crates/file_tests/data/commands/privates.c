#include <stdint.h>
#include <stdio.h>
#define N 8
uint64_t A[N], B[N];
int main(void) {
    int i, j;
    uint64_t t, sum;
    for (i = 0; i < N; i++) A[i] = i * i;
    #pragma omp target teams distribute parallel for private(i, j, t, sum) map(to: A) map(from: B)
    for (i = 0; i < N; i++) {
        sum = 0;
        for (j = 0; j < N; j++) {
            t = A[j] + i;
            sum += t * t;
        }
        B[i] = sum;
    }
    for (i = 0; i < N; i++) {
        t = B[i];
        printf("%lu\n", t);
    }
    return 0;
}
