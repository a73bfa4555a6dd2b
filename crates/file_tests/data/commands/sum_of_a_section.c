#include "ompc.h"
uint64_t A[8];
int main(void) {
#pragma omp target teams distribute parallel for map(tofrom: A[0:4]) reduction(+: A[0:4])
for (int i = 0; i < 64; i++) A[i % 4] += 1;
print(A[0]);
}
