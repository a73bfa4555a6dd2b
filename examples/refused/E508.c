#include "ompc.h"
uint64_t A[4];
uint64_t B[4];
int main(void) {
#pragma omp target map(to: A) map(from: B) nowait
for (uint64_t i = 0; i < 4; i += 1) { B[i] = A[i]; }
#pragma omp target map(to: A) nowait
{ }
}
