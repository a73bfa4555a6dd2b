#include <stdint.h>
#include <stdio.h>
#include "ompc.h"
#define N 8
uint64_t A[N], B[N];
static uint64_t least(uint64_t x, uint64_t y) { return x < y ? x : y; }
int main(void) {
    uint64_t n = read(), m = n > 4 ? 4 : n;
    for (int i = 0; i < N; i++) A[i] = (i * 5 + 3) % N;
    #pragma omp target teams distribute parallel for map(to: A) map(from: B)
    for (int i = 0; i < N; i++) {
        uint64_t left = i > 0 ? A[i - 1] : A[i], right = i < N - 1 ? A[i + 1] : A[i];
        B[i] = (left < right ? left : right) + (A[i] % 2 ? 10 : 0);
    }
    for (int i = 0; i < N; i++) print(B[i]);
    B[m < 2 ? 0 : 1] += m ? 100 : 200;
    n = B[0] < 50 ? 1 : B[0] < 150 ? 2 : 3;
    print(n);
    n = least(B[1], m);
    print(n ? n : 7);
    return 0;
}
