#include "ompc.h"
uint64_t A[4];
int main(void) {
for (uint64_t i = 0; i < 65537; i += 1) {
#pragma omp target update to(A)
}
}
