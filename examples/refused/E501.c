#include "ompc.h"
uint64_t A[8];
int main(void) {
#pragma omp target data map(alloc: A[0:4])
{
#pragma omp target
{ A[0] = 5; }
}
}
