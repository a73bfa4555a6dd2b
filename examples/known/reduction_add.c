// SOLLVE test_target_teams_distribute_parallel_for_reduction_add: a scalar in a region of data, and its sum.
#include <stdint.h>
#include <stdio.h>
#define N 1024

uint64_t a[N], b[N];

int main() {
  uint64_t total = 0;
  uint64_t host_total = 0;
  for (int x = 0; x < N; ++x) {
    a[x] = 1;
    b[x] = x;
  }
  #pragma omp target data map(to: a[0:N], b[0:N]) map(tofrom: total)
  {
    #pragma omp target teams distribute parallel for reduction(+: total)
    for (int x = 0; x < N; ++x) total += a[x] + b[x];
  }
  for (int x = 0; x < N; ++x) host_total += a[x] + b[x];
  uint64_t errors = host_total != total;
  printf("%lu\n", errors);
  printf("%lu\n", total);
  return 0;
}
