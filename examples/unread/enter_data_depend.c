//===--- test_target_enter_data_depend.c ------------------------------------===//
// OpenMP API Version 4.5 Nov 2015 (SOLLVE V&V)
#include <stdio.h>
#include <stdlib.h>
#include <stdbool.h>
#include <omp.h>

#define OMPVV_TEST_AND_SET(err, condition) { err += (condition); }
#define N 1000

int test_async_between_task_target() {
  int errors = 0;
  bool isHost = false;
  int sum = 0;
  int *h_array = (int *)malloc(N * sizeof(int));
  int *in_1 = (int *)malloc(N * sizeof(int));
  int *in_2 = (int *)malloc(N * sizeof(int));

  // host task
  #pragma omp task depend(out: in_1) shared(in_1)
  {
    for (int i = 0; i < N; ++i)
      in_1[i] = 1;
  }
  // host task
  #pragma omp task depend(out: in_2) shared(in_2)
  {
    for (int i = 0; i < N; ++i)
      in_2[i] = 2;
  }

  #pragma omp target enter data nowait map(alloc: h_array[0:N]) map(to: in_1[0:N]) map(to: in_2[0:N]) depend(out: h_array) depend(in: in_1) depend(in: in_2)

  #pragma omp target nowait depend(inout: h_array) depend(in: in_1) depend(in: in_2)
  {
    for (int i = 0; i < N; ++i)
      h_array[i] = in_1[i] * in_2[i];
  }

  #pragma omp target exit data nowait map(from: h_array[0:N]) map(delete: in_1[0:N], in_2[0:N]) depend(inout: h_array)

  #pragma omp task depend(in: h_array) shared(sum, h_array)
  {
    for (int i = 0; i < N; ++i)
      sum += h_array[i];
  }

  #pragma omp taskwait

  OMPVV_TEST_AND_SET(errors, (N * 2 != sum));
  free(h_array);
  free(in_1);
  free(in_2);
  if (isHost) errors++;
  return errors;
}

int main() {
  int errors = 0;
  OMPVV_TEST_AND_SET(errors, test_async_between_task_target() != 0);
  printf("%d\n", errors);
  return errors;
}
