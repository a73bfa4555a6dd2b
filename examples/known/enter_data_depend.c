// SOLLVE validation suite, test_target_enter_data_depend: deferred entries that are ordered by what they depend on.
#include <stdint.h>
#include <stdio.h>
#define N 1024

uint64_t h_array[N], h_copy[N];

int main() {
  for (size_t i = 0; i < N; ++i)
    h_array[i] = i;

  #pragma omp target enter data map(to: h_array[:N]) depend(out: h_array) nowait
  #pragma omp target enter data map(alloc: h_copy[:N]) depend(out: h_copy) nowait
  #pragma omp target map(present, alloc: h_array, h_copy) nowait depend(in: h_array) depend(inout: h_copy)
  for (size_t i = 0; i < N; ++i)
    h_copy[i] = h_array[i] + 16;
  #pragma omp target exit data map(from: h_copy[:N]) map(release: h_array[:N]) nowait depend(inout: h_array, h_copy)
  #pragma omp taskwait depend(in: h_copy)

  uint64_t errors = 0;
  for (size_t i = 0; i < N; ++i)
    if (h_copy[i] != i + 16) errors++;
  printf("%lu\n", errors);
  #pragma omp taskwait
  return 0;
}
