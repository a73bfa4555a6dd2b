// SPEC ACCEL 503.postencil (Parboil stencil): main.c and kernels.c
#include <stdint.h>
#include <stdio.h>
#include <stdlib.h>

#define Index3D(_nx,_ny,_i,_j,_k) ((_i)+_nx*((_j)+_ny*(_k)))

static int read_data(uint64_t *A0, int nx, int ny, int nz)
{
  int s = 0;
  int i, j, k;
  for (i = 0; i < nz; i++)
  {
    for (j = 0; j < ny; j++)
    {
      for (k = 0; k < nx; k++)
      {
        A0[s] = (s * 57) % 1000;
        s++;
      }
    }
  }
  return 0;
}

void cpu_stencil(uint64_t c0, uint64_t c1, uint64_t *A0, uint64_t *Anext, const int nx, const int ny, const int nz)
{
  int i, j, k;
  #pragma omp target map(alloc: A0[0:nx*ny*nz], Anext[0:nx*ny*nz])
  #pragma omp teams distribute parallel for collapse(2)
  for (k = 1; k < nz - 1; k++)
  {
    for (j = 1; j < ny - 1; j++)
    {
      for (i = 1; i < nx - 1; i++)
      {
        Anext[Index3D (nx, ny, i, j, k)] =
          (A0[Index3D (nx, ny, i, j, k + 1)] +
           A0[Index3D (nx, ny, i, j, k - 1)] +
           A0[Index3D (nx, ny, i, j + 1, k)] +
           A0[Index3D (nx, ny, i, j - 1, k)] +
           A0[Index3D (nx, ny, i + 1, j, k)] +
           A0[Index3D (nx, ny, i - 1, j, k)]) * c1
          - A0[Index3D (nx, ny, i, j, k)] * c0;
      }
    }
  }
}

int main(int argc, char** argv)
{
  int nx, ny, nz;
  int size;
  int iteration;
  uint64_t c0 = 6;
  uint64_t c1 = 1;

  nx = 16;
  ny = 16;
  nz = 16;
  iteration = 10;

  uint64_t *h_A0;
  uint64_t *h_Anext;

  size = nx*ny*nz;
  h_A0 = (uint64_t*)malloc(sizeof(uint64_t)*size);
  h_Anext = (uint64_t*)malloc(sizeof(uint64_t)*size);

  read_data(h_A0, nx, ny, nz);
  for (int i = 0; i < size; i++)
    h_Anext[i] = h_A0[i];

  int t;
  #pragma omp target data map(tofrom: h_A0[0:size], h_Anext[0:size])
  {
    for (t = 0; t < iteration; t++)
    {
      cpu_stencil(c0, c1, h_A0, h_Anext, nx, ny, nz);
      uint64_t *temp = h_A0;
      h_A0 = h_Anext;
      h_Anext = temp;
    }
  }

  uint64_t sum = 0;
  for (int i = 0; i < size; i++)
    sum += h_A0[i];
  printf("%lu\n", sum);
  printf("%lu\n", h_A0[Index3D(nx, ny, 5, 6, 7)]);

  free(h_A0);
  free(h_Anext);
  return 0;
}
