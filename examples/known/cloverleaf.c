// CloverLeaf: two chunks of a field on two devices, entered once, whose borders are packed and exchanged in each step.
#include <stdint.h>
#include <stdio.h>
enum { X = 12, Y = 10 };
#define STEPS 10

uint64_t density0[Y][X], density1[Y][X];
uint64_t send0[Y], send1[Y];

int main() {
  for (int k = 0; k < Y; k++)
    for (int j = 0; j < X; j++) {
      density0[k][j] = X * k + j;
      density1[k][j] = 1000 + X * k + j;
    }
  #pragma omp target enter data map(to: density0) map(alloc: send0) device(0)
  #pragma omp target enter data map(to: density1) map(alloc: send1) device(1)
  for (int step = 0; step < STEPS; step++) {
    #pragma omp target teams distribute parallel for map(present, alloc: density0, send0) device(0) nowait depend(out: send0)
    for (int k = 0; k < Y; k++) send0[k] = density0[k][X - 2];
    #pragma omp target teams distribute parallel for map(present, alloc: density1, send1) device(1) nowait depend(out: send1)
    for (int k = 0; k < Y; k++) send1[k] = density1[k][1];
    #pragma omp target update from(send0) device(0) nowait depend(inout: send0)
    #pragma omp target update from(send1) device(1) nowait depend(inout: send1)
    #pragma omp taskwait
    #pragma omp target teams distribute parallel for map(to: send1) map(present, alloc: density0) device(0)
    for (int k = 0; k < Y; k++) density0[k][X - 1] = send1[k];
    #pragma omp target teams distribute parallel for map(to: send0) map(present, alloc: density1) device(1)
    for (int k = 0; k < Y; k++) density1[k][0] = send0[k];
    #pragma omp target teams distribute parallel for map(present, alloc: density0) device(0) nowait
    for (int k = 0; k < Y; k++)
      for (int j = 1; j <= X - 2; j++)
        density0[k][j] = (density0[k][j - 1] + density0[k][j + 1]) / 2;
    #pragma omp target teams distribute parallel for map(present, alloc: density1) device(1) nowait
    for (int k = 0; k < Y; k++)
      for (int j = 1; j <= X - 2; j++)
        density1[k][j] = (density1[k][j - 1] + density1[k][j + 1]) / 2;
    #pragma omp taskwait
  }
  #pragma omp target exit data map(from: density0) map(delete: send0) device(0)
  #pragma omp target exit data map(from: density1) map(delete: send1) device(1)
  printf("%lu\n", density0[0][X - 2]);
  printf("%lu\n", density1[0][1]);
  printf("%lu\n", density0[Y - 1][X - 1]);
  return 0;
}
