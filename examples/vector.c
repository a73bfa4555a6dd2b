#include "ompc.h"
// Two vectors are added on the device. No two turns of the loop touch a cell in common, so they may run in any order.
uint64_t A[8];
uint64_t B[8];
uint64_t C[8];
int main(void) {
for (uint64_t i = 0; i < 8; i += 1) { A[i] = i; B[i] = 10 * i; }
#pragma omp target teams distribute parallel for map(to: A, B) map(from: C)
for (uint64_t i = 0; i < 8; i += 1) { C[i] = A[i] + B[i]; }
for (uint64_t i = 0; i < 8; i += 1) { print(C[i]); }
}
