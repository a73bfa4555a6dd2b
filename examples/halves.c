#include "ompc.h"
uint64_t A[8];
int main(void) {
#pragma omp target enter data map(to: A)
#pragma omp target map(tofrom: A[0:4]) nowait
for (uint64_t i = 0; i < 4; i += 1) { A[i] = i + 1; }
#pragma omp target map(tofrom: A[4:4]) nowait
for (uint64_t i = 4; i < 8; i += 1) { A[i] = i * 10; }
#pragma omp taskwait
#pragma omp target update from(A)
for (uint64_t i = 0; i < 8; i += 1) { print(A[i]); }
}
