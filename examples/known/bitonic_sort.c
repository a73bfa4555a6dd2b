// HeCBench bitonic-sort-omp: a number and its partner are put in order, for each pair of strides.
#include <stdint.h>
#include <stdio.h>
#define N 64
#define STAGES 21

uint64_t a[N], ks[STAGES], js[STAGES];
uint64_t k = 2, j = 1;

int main() {
  for (size_t i = 0; i < N; i++)
    a[i] = (i * 7919 + 5) % 101;
  for (size_t s = 0; s < STAGES; s++) {
    ks[s] = k;
    js[s] = j;
    if (j == 1) {
      k *= 2;
      j = k / 2;
    } else
      j /= 2;
  }
  #pragma omp target data map(tofrom: a) map(to: ks, js)
  {
    for (size_t s = 0; s < STAGES; s++) {
      #pragma omp target
      for (size_t i = 0; i < N; i++) {
        uint64_t partner = i ^ js[s];
        if (partner > i) {
          uint64_t up = (i & ks[s]) == 0, x = a[i], y = a[partner & 63];
          if (up && x > y || !up && x < y) {
            a[i] = y;
            a[partner & 63] = x;
          }
        }
      }
    }
  }
  for (size_t i = 0; i < N; i += 7)
    printf("%lu\n", a[i]);
  return 0;
}
