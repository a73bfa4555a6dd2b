// SPEC ACCEL 503.postencil: a stencil of seven points in three dimensions, two steps in each turn between two arrays.
#include <stdint.h>
#include <stdio.h>
#define NX 8
#define NY 8
#define NZ 8
#define TURNS 10

uint64_t A[NZ][NY][NX], B[NZ][NY][NX];

int main() {
  for (size_t k = 0; k < NZ; k++)
    for (size_t j = 0; j < NY; j++)
      for (size_t i = 0; i < NX; i++) {
        A[k][j][i] = (NX * NY * k + NX * j + i) * 57 % 1000;
        B[k][j][i] = A[k][j][i];
      }
  #pragma omp target data map(tofrom: A) map(to: B)
  {
    for (size_t t = 0; t < TURNS; t++) {
      #pragma omp target teams distribute parallel for collapse(3)
      for (size_t k = 1; k < NZ - 1; k++)
        for (size_t j = 1; j < NY - 1; j++)
          for (size_t i = 1; i < NX - 1; i++)
            B[k][j][i] =
                (A[k][j][i + 1] + A[k][j][i - 1] + A[k][j + 1][i] + A[k][j - 1][i] + A[k + 1][j][i] + A[k - 1][j][i]) / 6;
      #pragma omp target teams distribute parallel for collapse(3)
      for (size_t k = 1; k < NZ - 1; k++)
        for (size_t j = 1; j < NY - 1; j++)
          for (size_t i = 1; i < NX - 1; i++)
            A[k][j][i] =
                (B[k][j][i + 1] + B[k][j][i - 1] + B[k][j + 1][i] + B[k][j - 1][i] + B[k + 1][j][i] + B[k - 1][j][i]) / 6;
    }
  }
  printf("%lu\n", A[1][1][1]);
  printf("%lu\n", A[3][3][3]);
  return 0;
}
