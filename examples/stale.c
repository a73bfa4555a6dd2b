#include "ompc.h"
uint64_t A[4];
int main(void) {
for (uint64_t i = 0; i < 4; i += 1) { A[i] = i; }
#pragma omp target map(to: A[0:4])
for (uint64_t i = 0; i < 4; i += 1) { A[i] = A[i] * 2 + 1; }
for (uint64_t i = 0; i < 4; i += 1) { print(A[i]); }
}
