#include "ompc.h"
// A product of two matrices of three rows and columns: the nine turns of the two outer loops may run in any order.
uint64_t A[9];
uint64_t B[9];
uint64_t C[9];
int main(void) {
for (uint64_t i = 0; i < 9; i += 1) { A[i] = i + 1; B[i] = 9 - i; }
#pragma omp target teams distribute parallel for collapse(2) map(to: A, B) map(from: C)
for (uint64_t i = 0; i < 3; i += 1) {
for (uint64_t j = 0; j < 3; j += 1) {
uint64_t sum = 0;
for (uint64_t k = 0; k < 3; k += 1) { sum = sum + A[3 * i + k] * B[3 * k + j]; }
C[3 * i + j] = sum;
}
}
for (uint64_t i = 0; i < 9; i += 1) { print(C[i]); }
}
