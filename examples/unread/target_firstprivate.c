//===--- test_target_firstprivate.c / test_target_private.c -----------------===//
// OpenMP API Version 4.5 Nov 2015 (SOLLVE V&V)
#include <stdio.h>
#include <stdlib.h>
#include <omp.h>

#define OMPVV_TEST_AND_SET(err, condition) { err += (condition); }
#define N 10000

int test_target_firstprivate() {
  int errors = 0;
  int compute_array[4][N];
  int sum = 0, result = 0;
  int i, p_val, fp_val = 1;

  for (i = 0; i < 4; i++)
    for (int j = 0; j < N; j++)
      compute_array[i][j] = 0;

  for (p_val = 0; p_val < 4; ++p_val) {
    #pragma omp target map(tofrom: compute_array[p_val:1][0:N]) firstprivate(fp_val)
    {
      fp_val = p_val + 1;
      for (i = 0; i < N; i++)
        compute_array[p_val][i] += fp_val;
    }
  }

  for (i = 0; i < 4; i++)
    for (int j = 0; j < N; j++)
      OMPVV_TEST_AND_SET(errors, compute_array[i][j] != i + 1);

  for (i = 0; i < N; i++) {
    sum += fp_val;
    result += 1;
  }
  OMPVV_TEST_AND_SET(errors, result == 0);
  return errors;
}

int test_target_private() {
  int errors = 0;
  int compute_array[N];
  int p_val = 0;

  for (int i = 0; i < N; i++)
    compute_array[i] = i;

  #pragma omp target private(p_val) map(tofrom: compute_array[0:N])
  {
    p_val = 10;
    for (int i = 0; i < N; i++)
      compute_array[i] += p_val;
  }

  for (int i = 0; i < N; i++)
    OMPVV_TEST_AND_SET(errors, compute_array[i] != i + 10);
  OMPVV_TEST_AND_SET(errors, p_val < 0);
  return errors;
}

int main() {
  int errors = 0;
  OMPVV_TEST_AND_SET(errors, test_target_firstprivate() != 0);
  OMPVV_TEST_AND_SET(errors, test_target_private() != 0);
  printf("%d\n", errors);
  return errors;
}
