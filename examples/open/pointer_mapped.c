#include "ompc.h"
#define N 4

void twice(uint64_t *a) {
#pragma omp target map(tofrom: a)
for (uint64_t i = 0; i < N; i += 1) { a[i] = a[i] * 2; }
}

uint64_t A[N];
int main(void) {
A[3] = 3;
twice(A);
print(A[3]);
}
