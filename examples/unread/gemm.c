// HeCBench matrix-mul / PolyBench gemm
#include <stdint.h>
#include <stdio.h>
#include <stdlib.h>

#define M 64
#define N 64
#define P 64
#define BLOCK_SIZE 16

uint64_t a_host[M][N];
uint64_t b_host[N][P];
uint64_t c_host[M][P];
uint64_t c_back[M][P];

int VerifyResult(uint64_t (*c_back)[P]) {
  int i, j, k;
  int mismatches = 0;
  for (i = 0; i < M; i++)
    for (j = 0; j < P; j++)
      c_host[i][j] = 0;

  for (i = 0; i < M; i++)
    for (k = 0; k < N; k++)
      for (j = 0; j < P; j++)
        c_host[i][j] += a_host[i][k] * b_host[k][j];

  for (i = 0; i < M; i++)
    for (j = 0; j < P; j++)
      if (c_host[i][j] != c_back[i][j]) mismatches++;
  return mismatches;
}

int main(int argc, char *argv[]) {
  if (argc > 2) {
    printf("%d\n", -1);
    return 1;
  }
  int i, j;
  uint64_t *a = (uint64_t *) malloc(M * N * sizeof(uint64_t));
  uint64_t *b = (uint64_t *) malloc(N * P * sizeof(uint64_t));
  uint64_t *c = (uint64_t *) malloc(M * P * sizeof(uint64_t));

  for (i = 0; i < M; i++)
    for (j = 0; j < N; j++)
      a_host[i][j] = a[i*N+j] = i + 1;

  for (i = 0; i < N; i++)
    for (j = 0; j < P; j++)
      b_host[i][j] = b[i*P+j] = j + 1;

  #pragma omp target data map(to: a[0:M*N], b[0:N*P]) map(from: c[0:M*P])
  {
    #pragma omp target teams distribute parallel for collapse(2) thread_limit(BLOCK_SIZE*BLOCK_SIZE)
    for (int i = 0; i < M; i++) {
      for (int j = 0; j < P; j++) {
        uint64_t sum = 0;
        for (int k = 0; k < N; k++)
          sum += a[i*N+k] * b[k*P+j];
        c[i*P+j] = sum;
      }
    }
  }

  for (i = 0; i < M; i++)
    for (j = 0; j < P; j++)
      c_back[i][j] = c[i*P+j];

  int mismatches = VerifyResult(c_back);
  printf("%d\n", mismatches);
  printf("%lu\n", c[17*P+5]);
  free(a);
  free(b);
  free(c);
  return mismatches;
}
