#include "ompc.h"
#define N 8
uint64_t A[N];
void twice(uint64_t *p, int n) {
#pragma omp target if(n > 4) map(tofrom: p[0:N])
#pragma omp parallel for
for (int i = 0; i < n; i++) p[i] = 2 * p[i];
}
int main(void) {
for (int i = 0; i < N; i++) A[i] = i;
twice(A, 8);
#pragma omp target parallel if(N > 8) map(tofrom: A)
#pragma omp for
for (int i = 0; i < N; i++) A[i] = A[i] + 1;
print(A[7]);
}
