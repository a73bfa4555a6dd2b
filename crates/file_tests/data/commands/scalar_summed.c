// a sum as it is written, in a scalar
#include <stdint.h>
#include <stdio.h>
#define N 8
uint64_t a[N];
int main(void) {
    uint64_t sum = 5;
    uint64_t all = 15;
    for (int i = 0; i < N; i++) a[i] = 3 * i + 1;
#pragma omp target teams distribute parallel for map(to: a) reduction(+: sum) reduction(&: all)
    for (int i = 0; i < N; i++) {
        sum += a[i];
        all &= a[i] | 8;
    }
    printf("%lu\n", sum);
    printf("%lu\n", all);
    return 0;
}
