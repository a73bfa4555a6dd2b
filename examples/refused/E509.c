#include "ompc.h"
uint64_t A[4];
int main(void) {
#pragma omp target enter data map(to: A) device(1)
#pragma omp target map(present, alloc: A)
{ A[0] = A[0] + 1; }
}
