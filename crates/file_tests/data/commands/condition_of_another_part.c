#include "ompc.h"
#define N 8
uint64_t A[N];
int main(void) {
#pragma omp target if(parallel: N > 4) map(tofrom: A)
#pragma omp parallel for
for (int i = 0; i < N; i++) A[i] = i;
print(A[7]);
}
