// Rodinia / HeCBench pathfinder (OpenMP offload)
#include <stdint.h>
#include <stdio.h>
#include <stdlib.h>
#include <string.h>

#define M_SEED 9
#define IN_RANGE(x, min, max) ((x) >= (min) && (x) <= (max))
#define CLAMP_RANGE(x, min, max) x = (x < (min)) ? min : ((x > (max)) ? max : x)
#define MIN(a, b) ((a) <= (b) ? (a) : (b))

int rows, cols;
int *data;
int **wall;
int *result;

void init(int argc, char **argv)
{
  rows = 64;
  cols = 256;
  data = (int *)malloc(rows * cols * sizeof(int));
  wall = (int **)malloc(rows * sizeof(int *));
  for (int n = 0; n < rows; n++)
    wall[n] = data + cols * n;
  result = (int *)malloc(cols * sizeof(int));

  unsigned int seed = M_SEED;
  for (int i = 0; i < rows; i++) {
    for (int j = 0; j < cols; j++) {
      seed = seed * 1103515245 + 12345;
      wall[i][j] = (seed >> 16) % 10;
    }
  }
  for (int j = 0; j < cols; j++)
    result[j] = wall[0][j];
}

int main(int argc, char **argv)
{
  init(argc, argv);

  int *src, *dst, *temp;
  int min;

  dst = (int *)malloc(sizeof(int) * cols);
  src = (int *)malloc(sizeof(int) * cols);
  memcpy(dst, result, cols * sizeof(int));
  memset(src, 0, cols * sizeof(int));

  #pragma omp target data map(to: data[0:rows*cols]) map(tofrom: src[0:cols], dst[0:cols])
  {
    for (int t = 0; t < rows - 1; t++) {
      temp = src;
      src = dst;
      dst = temp;
      #pragma omp target teams distribute parallel for private(min) thread_limit(256)
      for (int n = 0; n < cols; n++) {
        min = src[n];
        if (n > 0)
          min = MIN(min, src[n-1]);
        if (n < cols - 1)
          min = MIN(min, src[n+1]);
        dst[n] = data[(t+1)*cols+n] + min;
      }
    }
  }

  uint64_t sum = 0;
  for (int i = 0; i < cols; i++)
    sum += dst[i];
  printf("%lu\n", sum);
  printf("%d\n", dst[0]);

  free(data);
  free(wall);
  free(dst);
  free(src);
  free(result);
  return 0;
}
