#include "ompc.h"
// A stencil on two devices: each works on its half of the arrays, at the same time as the other, and on one cell of the other
// half, which is brought to it through the host after each sweep.
uint64_t A[16];
uint64_t B[16];
int main(void) {
for (uint64_t i = 0; i < 16; i += 1) { A[i] = i * i * i; }
#pragma omp target enter data map(to: A[0:9]) map(alloc: B[0:9])
#pragma omp target enter data map(to: A[7:9]) map(alloc: B[7:9]) device(1)
for (uint64_t sweep = 0; sweep < 4; sweep += 2) {
#pragma omp target map(present, alloc: A[0:9]) map(present, alloc: B[0:9]) nowait
{
B[0] = A[0];
for (uint64_t i = 1; i < 8; i += 1) { B[i] = (A[i - 1] + 2 * A[i] + A[i + 1]) / 4; }
}
#pragma omp target device(1) map(present, alloc: A[7:9]) map(present, alloc: B[7:9]) nowait
{
for (uint64_t i = 8; i < 15; i += 1) { B[i] = (A[i - 1] + 2 * A[i] + A[i + 1]) / 4; }
B[15] = A[15];
}
#pragma omp taskwait
#pragma omp target update from(B[7:1])
#pragma omp target update to(B[7:1]) device(1)
#pragma omp target update from(B[8:1]) device(1)
#pragma omp target update to(B[8:1])
#pragma omp target map(present, alloc: A[0:9]) map(present, alloc: B[0:9]) nowait
{
A[0] = B[0];
for (uint64_t i = 1; i < 8; i += 1) { A[i] = (B[i - 1] + 2 * B[i] + B[i + 1]) / 4; }
}
#pragma omp target device(1) map(present, alloc: A[7:9]) map(present, alloc: B[7:9]) nowait
{
for (uint64_t i = 8; i < 15; i += 1) { A[i] = (B[i - 1] + 2 * B[i] + B[i + 1]) / 4; }
A[15] = B[15];
}
#pragma omp taskwait
#pragma omp target update from(A[7:1])
#pragma omp target update to(A[7:1]) device(1)
#pragma omp target update from(A[8:1]) device(1)
#pragma omp target update to(A[8:1])
}
#pragma omp target update from(A[0:8])
#pragma omp target update from(A[8:8]) device(1)
for (uint64_t i = 0; i < 16; i += 1) { print(A[i]); }
}
