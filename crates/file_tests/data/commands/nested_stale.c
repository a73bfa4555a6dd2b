#include "ompc.h"
#define N 8
uint64_t A[N], y[N], x[N];
#pragma omp declare target
uint64_t product(uint64_t a, uint64_t b) { return a * b; }
#pragma omp end declare target
int main(void) {
    for (uint64_t i = 0; i < N; i++) {
        A[i] = i;
        x[i] = 2;
    }
#pragma omp target map(to: A) map(from: y) map(alloc: x)
#pragma omp teams num_teams(2) thread_limit(4)
#pragma omp distribute parallel for
    for (uint64_t i = 0; i < N; i++) y[i] = product(A[i], x[i]);
    for (uint64_t i = 0; i < N; i++) print(y[i]);
    return 0;
}
