#include "ompc.h"
uint64_t A[4];
int main(void) {
#pragma omp target enter data map(to: A)
A[0] = 1;
#pragma omp target map(to: A)
{ A[1] = A[0]; }
}
