#include "ompc.h"
uint64_t A[4];
int main(void) {
#pragma omp target device(4)
{ A[0] = 1; }
}
