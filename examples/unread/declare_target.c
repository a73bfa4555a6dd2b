//===--- test_declare_target_function.c / _variable.c -----------------------===//
// OpenMP API Version 4.5 Nov 2015 (SOLLVE V&V)
#include <stdio.h>
#include <stdlib.h>
#include <omp.h>

#define OMPVV_TEST_AND_SET(err, condition) { err += (condition); }
#define N 1000

#pragma omp declare target
int a[N], b[N], c[N];
int i = 0;
#pragma omp end declare target

#pragma omp declare target
void update() {
  for (i = 0; i < N; i++) {
    a[i] += 1;
    b[i] += 2;
    c[i] += 3;
  }
}
#pragma omp end declare target

int test_declare_target() {
  int errors = 0;

  // Initialize on the host
  for (int j = 0; j < N; j++) {
    a[j] = 10;
    b[j] = 20;
    c[j] = 30;
  }
  #pragma omp target update to(a, b, c)

  #pragma omp target
  {
    update();
  }

  #pragma omp target update from(a, b, c)

  for (int j = 0; j < N; j++) {
    if (a[j] != 11 || b[j] != 22 || c[j] != 33) {
      errors++;
    }
  }
  return errors;
}

int main() {
  int errors = 0;
  OMPVV_TEST_AND_SET(errors, test_declare_target());
  printf("%d\n", errors);
  return errors;
}
