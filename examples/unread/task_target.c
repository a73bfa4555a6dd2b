//===--- test_task_target.c --------------------------------------------------===//
// OpenMP API Version 4.5 Nov 2015 (SOLLVE V&V)
#include <stdio.h>
#include <stdlib.h>
#include <omp.h>

#define OMPVV_TEST_AND_SET(err, condition) { err += (condition); }
#define N 1024

int test_task_target() {
  int errors = 0;
  int is_shared_env = 0;
  int x[N], y[N], z[N];
  int num_threads = 8;

  for (int i = 0; i < N; i++) {
    x[i] = i;
    y[i] = i * i;
    z[i] = 0;
  }

  #pragma omp parallel num_threads(num_threads)
  {
    #pragma omp single
    {
      #pragma omp task
      {
        #pragma omp target teams distribute parallel for map(to: x[0:N], y[0:N]) map(from: z[0:N])
        for (int i = 0; i < N; i++) {
          z[i] = x[i] + y[i];
        }
      }
      #pragma omp taskwait
    }
  }

  for (int i = 0; i < N; i++) {
    OMPVV_TEST_AND_SET(errors, z[i] != x[i] + y[i]);
  }
  if (is_shared_env != 0)
    errors++;
  return errors;
}

int main() {
  int errors = 0;
  OMPVV_TEST_AND_SET(errors, test_task_target());
  printf("%d\n", errors);
  return errors;
}
