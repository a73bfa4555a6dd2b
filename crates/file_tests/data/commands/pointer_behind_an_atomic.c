#include "ompc.h"
uint64_t A[8], B[8];
void f(uint64_t *p, uint64_t *q) {
#pragma omp target map(tofrom: q[0:8])
for (int i = 0; i < 8; i++) {
#pragma omp atomic
q[0] += 1;
p[i] = i;
}
}
int main(void) {
f(A, B);
print(A[7]);
}
