#include "ompc.h"
uint64_t A[4];
int main(void) {
#pragma omp target data map(to: A) nowait
{ }
}
