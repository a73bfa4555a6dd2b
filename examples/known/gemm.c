// PolyBench's gemm, C = alpha A B + beta C: loops whose names are declared before them, sizes as parameters.
#include <stdio.h>
#include "ompc.h"

#define NI 16
#define NJ 18
#define NK 22

uint64_t C[NI][NJ], A[NI][NK], B[NK][NJ];

static void init_array(int ni, int nj, int nk, uint64_t C[NI][NJ], uint64_t A[NI][NK], uint64_t B[NK][NJ])
{
  int i, j;

  for (i = 0; i < ni; i++)
    for (j = 0; j < nj; j++)
      C[i][j] = (i * j + 1) % NI;
  for (i = 0; i < ni; i++)
    for (j = 0; j < nk; j++)
      A[i][j] = i * (j + 1) % NK;
  for (i = 0; i < nk; i++)
    for (j = 0; j < nj; j++)
      B[i][j] = i * (j + 2) % NJ;
}

static void kernel_gemm(int ni, int nj, int nk, uint64_t alpha, uint64_t beta,
                        uint64_t C[NI][NJ], uint64_t A[NI][NK], uint64_t B[NK][NJ])
{
  int i, j, k;

  #pragma omp target teams distribute parallel for collapse(2) private(k) map(to: A[0:ni], B[0:nk]) map(tofrom: C[0:ni])
  for (i = 0; i < ni; i++)
    for (j = 0; j < nj; j++) {
      C[i][j] *= beta;
      for (k = 0; k < nk; ++k)
        C[i][j] += alpha * A[i][k] * B[k][j];
    }
}

static void print_array(int ni, int nj, uint64_t C[NI][NJ])
{
  int i, j;
  uint64_t sum;

  for (i = 0; i < ni; i++) {
    sum = 0;
    for (j = 0; j < nj; j++)
      sum += C[i][j];
    printf("%lu\n", sum);
  }
}

int main(void)
{
  init_array(NI, NJ, NK, C, A, B);
  kernel_gemm(NI, NJ, NK, 3, 2, C, A, B);
  print_array(NI, NJ, C);
  return 0;
}
