// Multi-device 1-D stencil with halo exchange through the host
#include <stdint.h>
#include <stdio.h>
#include <stdlib.h>
#include <omp.h>

#define N 1024
#define STEPS 16

int main(void)
{
  int ndev = omp_get_num_devices();
  int chunk = N / ndev;
  uint64_t *u = (uint64_t *)malloc((N + 2) * sizeof(uint64_t));
  uint64_t *v = (uint64_t *)malloc((N + 2) * sizeof(uint64_t));

  for (int i = 0; i < N + 2; i++) {
    u[i] = i * 37 % 101;
    v[i] = u[i];
  }

  for (int d = 0; d < ndev; d++) {
    int start = d * chunk;
    #pragma omp target enter data device(d) map(to: u[start:chunk+2], v[start:chunk+2])
  }

  for (int t = 0; t < STEPS; t++) {
    for (int d = 0; d < ndev; d++) {
      int start = d * chunk;
      #pragma omp target teams distribute parallel for device(d) nowait
      for (int i = start + 1; i <= start + chunk; i++)
        v[i] = (u[i-1] + u[i] + u[i+1]) / 3;
    }
    #pragma omp taskwait

    /* halos */
    for (int d = 0; d < ndev; d++) {
      int start = d * chunk;
      #pragma omp target update device(d) from(v[start+1:1], v[start+chunk:1])
    }
    for (int d = 0; d < ndev; d++) {
      int start = d * chunk;
      if (d > 0) {
        #pragma omp target update device(d) to(v[start:1])
      }
      if (d < ndev - 1) {
        #pragma omp target update device(d) to(v[start+chunk+1:1])
      }
    }

    uint64_t *tmp = u;
    u = v;
    v = tmp;
  }

  for (int d = 0; d < ndev; d++) {
    int start = d * chunk;
    #pragma omp target update device(d) from(u[start+1:chunk])
    #pragma omp target exit data device(d) map(delete: u[start:chunk+2], v[start:chunk+2])
  }

  uint64_t sum = 0;
  for (int i = 1; i <= N; i++)
    sum += u[i];
  printf("%lu\n", sum);
  printf("%lu\n", u[N/2]);
  free(u);
  free(v);
  return 0;
}
