#include "ompc.h"
uint64_t A[8], B[8];
int main(void) {
A[0] = 1;
#pragma omp target enter data map(to: A)
A[0] = 2;
#pragma omp target enter data map(to: A) device(0)
#pragma omp target update to(A) device(0)
#pragma omp target map(alloc: A) map(from: B)
{ B[0] = A[0]; }
print(B[0]);
}
