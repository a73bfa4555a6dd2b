//===--- test_target_teams_distribute_parallel_for_reduction_add.c ----------===//
// OpenMP API Version 4.5 Nov 2015 (SOLLVE V&V)
#include <stdio.h>
#include <stdlib.h>
#include <omp.h>

#define OMPVV_TEST_AND_SET(err, condition) { err += (condition); }
#define N 1024

int test_add() {
  int a[N];
  int b[N];
  int total = 0;
  int host_total = 0;
  int errors = 0;
  int num_teams[N];

  for (int x = 0; x < N; ++x) {
    a[x] = 1;
    b[x] = x;
    num_teams[x] = -x;
  }

  #pragma omp target teams distribute parallel for reduction(+:total) defaultmap(tofrom:scalar)
  for (int x = 0; x < N; ++x) {
    num_teams[x] = omp_get_num_teams();
    total += a[x] + b[x];
  }

  for (int x = 0; x < N; ++x) {
    host_total += a[x] + b[x];
  }

  OMPVV_TEST_AND_SET(errors, host_total != total);
  OMPVV_TEST_AND_SET(errors, num_teams[0] < 1);
  return errors;
}

int main() {
  int total_errors = 0;
  OMPVV_TEST_AND_SET(total_errors, test_add() != 0);
  printf("%d\n", total_errors);
  return total_errors;
}
