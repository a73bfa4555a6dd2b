#include "ompc.h"
uint64_t A[8];
int main(void) {
#pragma omp target teams distribute parallel for map(tofrom: A[0:8]) reduction(+: A[0:2])
for (int i = 0; i < 64; i++) { A[i % 8] += 1; }
print(A[0]);
print(A[7]);
}
