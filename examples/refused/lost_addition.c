#include "ompc.h"
uint64_t A[1];
int main(void) {
#pragma omp target enter data map(to: A)
#pragma omp target map(alloc: A) nowait
{ A[0] = A[0] + 1; }
#pragma omp target map(alloc: A) nowait
{ A[0] = A[0] + 1; }
#pragma omp taskwait
#pragma omp target update from(A)
print(A[0]);
}
