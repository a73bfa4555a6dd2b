#include "ompc.h"
uint64_t A[4];
int main(void) {
#pragma omp target data map(alloc: A[0:4])
{
#pragma omp target
for (uint64_t i = 0; i < 4; i += 1) { A[i] = i + 5; }
#pragma omp target update from(A[0:2])
print(A[1]);
}
}
