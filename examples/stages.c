#include "ompc.h"
uint64_t A[4];
uint64_t B[4];
int main(void) {
#pragma omp target map(from: A) nowait depend(out: A)
for (uint64_t i = 0; i < 4; i += 1) { A[i] = i + 1; }
#pragma omp target map(to: A) map(from: B) nowait depend(in: A) depend(out: B)
for (uint64_t i = 0; i < 4; i += 1) { B[i] = A[i] * A[i]; }
#pragma omp taskwait
for (uint64_t i = 0; i < 4; i += 1) { print(B[i]); }
}
