// BabelStream: copy, mul, add, triad and dot over three arrays that are on the device for the whole run.
#include <stdint.h>
#include <stdio.h>
#define SIZE 4096
#define TIMES 10
#define SCALAR 3

uint64_t a[SIZE], b[SIZE], c[SIZE];

int main() {
  uint64_t sum = 0;
  #pragma omp target enter data map(alloc: a, b, c)
  #pragma omp target teams distribute parallel for simd
  for (size_t i = 0; i < SIZE; i++) {
    a[i] = 1;
    b[i] = 2;
    c[i] = 0;
  }
  for (size_t t = 0; t < TIMES; t++) {
    #pragma omp target teams distribute parallel for simd
    for (size_t i = 0; i < SIZE; i++) c[i] = a[i];
    #pragma omp target teams distribute parallel for simd
    for (size_t i = 0; i < SIZE; i++) b[i] = SCALAR * c[i];
    #pragma omp target teams distribute parallel for simd
    for (size_t i = 0; i < SIZE; i++) c[i] = a[i] + b[i];
    #pragma omp target teams distribute parallel for simd
    for (size_t i = 0; i < SIZE; i++) a[i] = b[i] + SCALAR * c[i];
    sum = 0;
    #pragma omp target teams distribute parallel for map(tofrom: sum) reduction(+: sum)
    for (size_t i = 0; i < SIZE; i++) sum += a[i] * b[i];
  }
  #pragma omp target exit data map(from: a, b, c)
  printf("%lu\n", sum);
  printf("%lu\n", a[0]);
  return 0;
}
