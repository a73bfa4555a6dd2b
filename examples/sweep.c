#include "ompc.h"
// Heat in a rod: each sweep goes from one array to the other and stays on the device. No two turns of a sweep touch a cell
// that one of them writes; in one array they would.
uint64_t A[16];
uint64_t B[16];
int main(void) {
for (uint64_t i = 0; i < 16; i += 1) { A[i] = 1000 * (i % 4); B[i] = A[i]; }
#pragma omp target data map(tofrom: A) map(to: B)
for (uint64_t k = 0; k < 3; k += 1) {
#pragma omp target teams distribute parallel for
for (uint64_t i = 1; i < 15; i += 1) { B[i] = (A[i - 1] + 2 * A[i] + A[i + 1]) / 4; }
#pragma omp target teams distribute parallel for
for (uint64_t i = 1; i < 15; i += 1) { A[i] = (B[i - 1] + 2 * B[i] + B[i + 1]) / 4; }
}
for (uint64_t i = 0; i < 16; i += 1) { print(A[i]); }
}
