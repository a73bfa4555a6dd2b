#include "ompc.h"
uint64_t A[8];
uint64_t S[2];
uint64_t n;
int main(void) {
n = read();
for (uint64_t i = 0; i < 8; i += 1) { A[i] = read(); }
#pragma omp target enter data map(to: A) map(alloc: S)
#pragma omp target nowait map(to: A) map(alloc: S[0:1]) depend(out: S[0:1])
{
  uint64_t sum = 0;
  for (uint64_t i = 0; i < 4; i += 1) { sum = sum + A[i] * n; }
  S[0] = sum;
}
#pragma omp target nowait map(to: A) map(alloc: S[1:1]) depend(out: S[1:1])
{
  uint64_t sum = 0;
  for (uint64_t i = 4; i < 8; i += 1) { sum = sum + A[i] * n; }
  S[1] = sum;
}
#pragma omp target update from(S[0:1]) depend(in: S[0:1])
print(S[0]);
#pragma omp taskwait
#pragma omp target exit data map(from: S) map(release: A)
print(S[0] + S[1]);
}
