// HeCBench stencil1d
#include <stdint.h>
#include <stdio.h>
#include <stdlib.h>
#include <omp.h>

#define BLOCK_SIZE 32
#define RADIUS 7

int main(int argc, char *argv[]) {
  int length = 4096;
  int pad_size = (length + RADIUS);
  uint64_t *a = (uint64_t *)malloc(pad_size * sizeof(uint64_t));
  uint64_t *b = (uint64_t *)malloc(length * sizeof(uint64_t));

  for (int i = 0; i < length + RADIUS; i++) a[i] = i;

  #pragma omp target data map(to: a[0:pad_size]) map(from: b[0:length])
  {
    #pragma omp target teams distribute parallel for num_teams(length/BLOCK_SIZE) thread_limit(BLOCK_SIZE)
    for (int i = 0; i < length; i += BLOCK_SIZE) {
      uint64_t temp[BLOCK_SIZE + 2 * RADIUS];
      for (int j = 0; j < BLOCK_SIZE; j++) {
        int gindex = i + j;
        int lindex = j + RADIUS;
        temp[lindex] = a[gindex];
        if (j < RADIUS) {
          temp[lindex - RADIUS] = (gindex < RADIUS) ? 0 : a[gindex - RADIUS];
          temp[lindex + BLOCK_SIZE] = a[gindex + BLOCK_SIZE];
        }
      }

      for (int j = 0; j < BLOCK_SIZE; j++) {
        int lindex = j + RADIUS;
        uint64_t result = 0;
        for (int offset = -RADIUS; offset <= RADIUS; offset++)
          result += temp[lindex + offset];
        b[i + j] = result;
      }
    }
  }

  // verification
  int ok = 1;
  for (int i = 0; i < 2 * RADIUS; i++) {
    uint64_t s = 0;
    for (int j = i; j <= i + 2 * RADIUS; j++)
      s += j < RADIUS ? 0 : (a[j] - RADIUS);
    if (s != b[i]) {
      ok = 0;
      break;
    }
  }
  for (int i = 2 * RADIUS; i < length; i++) {
    uint64_t s = 0;
    for (int j = i - RADIUS; j <= i + RADIUS; j++)
      s += a[j];
    if (s != b[i]) {
      ok = 0;
      break;
    }
  }
  printf("%d\n", ok);
  printf("%lu\n", b[100]);
  free(a);
  free(b);
  return 0;
}
