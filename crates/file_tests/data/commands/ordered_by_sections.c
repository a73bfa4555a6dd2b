#include "ompc.h"
uint64_t A[8], B[8];
void f(uint64_t *p) {
#pragma omp target map(tofrom: p[0:8]) depend(inout: p[0:8]) nowait
for (int i = 0; i < 8; i++) p[i] = p[i] + 1;
}
void g(uint64_t *p, uint64_t *q) {
#pragma omp target map(tofrom: q[0:8]) depend(inout: q[0:8]) nowait
for (int i = 0; i < 8; i++) {
#pragma omp atomic
q[0] += 1;
q[i] = q[i] * 3;
}
}
int main(void) {
#pragma omp target enter data map(to: A)
f(A);
g(B, A);
#pragma omp taskwait
#pragma omp target exit data map(from: A)
print(A[1]);
}
