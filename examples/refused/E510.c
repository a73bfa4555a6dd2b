#include "ompc.h"
uint64_t A[8];
int main(void) {
#pragma omp target teams distribute parallel for map(tofrom: A)
for (uint64_t i = 1; i < 7; i += 1) { A[i] = (A[i - 1] + A[i + 1]) / 2; }
}
