// Rodinia nw: two sequences are aligned, an anti-diagonal after another; the cells of one may be done in any order.
#include <stdint.h>
#include <stdio.h>
#define N 33
#define PENALTY 10

uint64_t reference[N * N], itemsets[N * N];

int main() {
  for (size_t i = 0; i < N * N; i++)
    reference[i] = (i * 31 + 3) % 9;
  for (size_t i = 0; i < N; i++) {
    itemsets[i] = 10000 - PENALTY * i;
    itemsets[N * i] = 10000 - PENALTY * i;
  }
  #pragma omp target data map(to: reference) map(tofrom: itemsets)
  {
    for (size_t d = 2; d < 2 * N - 1; d++) {
      #pragma omp target teams distribute parallel for
      for (size_t i = 1; i < N; i++)
        if (d > i && d - i < N) {
          uint64_t m = itemsets[N * i + d - i - N - 1] + reference[N * i + d - i];
          if (itemsets[N * i + d - i - 1] - PENALTY > m) m = itemsets[N * i + d - i - 1] - PENALTY;
          if (itemsets[N * i + d - i - N] - PENALTY > m) m = itemsets[N * i + d - i - N] - PENALTY;
          itemsets[N * i + d - i] = m;
        }
    }
  }
  for (size_t i = 0; i < N; i += 4)
    printf("%lu\n", itemsets[N * i + i]);
  return 0;
}
