//===--- test_target_data_map_devices.c -------------------------------------===//
// OpenMP API Version 4.5 Nov 2015 (SOLLVE V&V)
#include <stdio.h>
#include <stdlib.h>
#include <omp.h>

#define OMPVV_TEST_AND_SET(err, condition) { err += (condition); }
#define N 1000

int test_map_set_default_dev() {
  int num_dev = omp_get_num_devices();
  int def_dev = omp_get_default_device();
  int sum[num_dev], errors = 0;
  int h_matrix[num_dev][N];

  for (int dev = 0; dev < num_dev; ++dev) {
    omp_set_default_device(dev);
    #pragma omp target data map(from: h_matrix[dev][0:N])
    {
      #pragma omp target map(from: h_matrix[dev][0:N])
      {
        for (int i = 0; i < N; ++i)
          h_matrix[dev][i] = dev;
      } // end target
    } // end target data
  }

  // checking results
  errors = 0;
  for (int dev = 0; dev < num_dev; ++dev) {
    sum[dev] = h_matrix[dev][0];
    for (int i = 1; i < N; ++i)
      sum[dev] += h_matrix[dev][i];
    OMPVV_TEST_AND_SET(errors, (dev * N != sum[dev]));
  }
  omp_set_default_device(def_dev);
  return errors;
}

int test_map_device() {
  int num_dev = omp_get_num_devices();
  int sum[num_dev], errors = 0;
  int h_matrix[num_dev][N];

  for (int dev = 0; dev < num_dev; ++dev) {
    #pragma omp target data map(from: h_matrix[dev][0:N]) device(dev)
    {
      #pragma omp target map(from: h_matrix[dev][0:N]) device(dev)
      {
        for (int i = 0; i < N; ++i)
          h_matrix[dev][i] = dev;
      } // end target
    } // end target data
  }

  // checking results
  errors = 0;
  for (int dev = 0; dev < num_dev; ++dev) {
    sum[dev] = h_matrix[dev][0];
    for (int i = 1; i < N; ++i)
      sum[dev] += h_matrix[dev][i];
    OMPVV_TEST_AND_SET(errors, (dev * N != sum[dev]));
  }
  return errors;
}

int main() {
  int errors = 0;
  OMPVV_TEST_AND_SET(errors, test_map_set_default_dev());
  OMPVV_TEST_AND_SET(errors, test_map_device());
  printf("%d\n", errors);
  return errors;
}
