#include "ompc.h"
uint64_t A[8];
int main(void) {
#pragma omp target map(tofrom: A) nowait depend(out: A[0:4])
{ A[0] = 1; }
#pragma omp target map(tofrom: A) nowait depend(in: A[2:4])
{ A[5] = A[0]; }
}
