//===--- test_target_update_if.c --------------------------------------------===//
// OpenMP API Version 4.5 Nov 2015 (SOLLVE V&V)
#include <stdio.h>
#include <stdlib.h>
#include <omp.h>

#define OMPVV_TEST_AND_SET(err, condition) { err += (condition); }
#define N 100

int a[N], b[N], c[N];

int main() {
  int errors = 0;
  int i, change_flag, attempt;

  for (i = 0; i < N; i++) {
    a[i] = 10;
    b[i] = 50;
    c[i] = 0;
  }

  for (attempt = 0; attempt < 2; ++attempt) {
    change_flag = attempt;

    #pragma omp target data map(to: a[:N], b[:N]) map(tofrom: c)
    {
      #pragma omp target
      {
        int j = 0;
        for (j = 0; j < N; j++) {
          c[j] = (a[j] + b[j]);
        }
      } // end of omp target

      for (i = 0; i < N; i++) {
        b[i] = b[i] + 50;
      }

      #pragma omp target update if (change_flag) to(b[:N])

      #pragma omp target
      {
        int j = 0;
        for (j = 0; j < N; j++) {
          c[j] = (c[j] + b[j]);
        }
      } // end of omp target
    } // end of omp target data

    for (i = 0; i < N; i++) {
      if (change_flag == 0) {
        OMPVV_TEST_AND_SET(errors, c[i] != 110);
      } else if (change_flag == 1) {
        OMPVV_TEST_AND_SET(errors, c[i] != 160);
      }
    }
    for (i = 0; i < N; i++) {
      b[i] = 50;
    }
  }

  printf("%d\n", errors);
  return errors;
}
