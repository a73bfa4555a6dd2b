// The tutorials' Laplace equation on a square, as in HeCBench's jacobi-omp: a sweep, its largest change, and a copy back.
#include <inttypes.h>
#include <stdio.h>
#define N 32
const int SWEEPS = 100;

uint64_t T[N][N], Tn[N][N];
uint64_t err[1];

void sweep(uint64_t to[N][N], uint64_t from[N][N]) {
  #pragma omp target teams distribute parallel for collapse(2) map(present, alloc: to[0:N][0:N], from[0:N][0:N])
  for (int i = 1; i < N - 1; i++)
    for (int j = 1; j < N - 1; j++)
      to[i][j] = (from[i][j - 1] + from[i][j + 1] + from[i - 1][j] + from[i + 1][j]) / 4;
}

int main() {
  for (int i = 0; i < N; i++) {
    T[0][i] = 1000000;
    T[i][0] = 500000;
  }
  #pragma omp target data map(tofrom: T), map(to: Tn), map(from: err)
  {
    for (int iter = 0; iter < SWEEPS; iter++) {
      sweep(Tn, T);
      #pragma omp target
      {
        err[0] = 0;
        for (int i = 1; i < N - 1; i++)
          for (int j = 1; j < N - 1; j++) {
            uint64_t d = Tn[i][j] - T[i][j];
            if (Tn[i][j] < T[i][j]) d = T[i][j] - Tn[i][j];
            if (d > err[0]) err[0] = d;
          }
      }
      #pragma omp target teams distribute parallel for collapse(2)
      for (int i = 1; i < N - 1; i++)
        for (int j = 1; j < N - 1; j++)
          T[i][j] = Tn[i][j];
    }
  }
  printf("%" PRIu64 "\n", err[0]);
  printf("%" PRIu64 "\n", T[1][1]);
  printf("%" PRIu64 "\n", T[16][16]);
  return 0;
}
