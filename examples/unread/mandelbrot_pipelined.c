// Tutorial mandelbrot (NVIDIA), blocked and pipelined, fixed point
#include <stdint.h>
#include <stdio.h>
#include <stdlib.h>

#define WIDTH 64
#define HEIGHT 64
#define MAX_ITERS 50
#define MAX_COLOR 255
#define BLOCKS 8
#define SCALE 1024
#define OFF 1048576ul

#pragma omp declare target
uint64_t mandelbrot(int Px, int Py)
{
  uint64_t x0 = OFF - 2 * SCALE + Px * 3 * SCALE / WIDTH;
  uint64_t y0 = OFF - SCALE + Py * 2 * SCALE / HEIGHT;
  uint64_t x = 0, y = 0, xx = 0, yy = 0;
  int iter = 0;
  while (xx + yy < 4 * SCALE && iter < MAX_ITERS) {
    uint64_t xt = (xx + x0 - yy) % OFF;
    y = (2 * x * y / SCALE + y0) % OFF;
    x = xt;
    xx = x * x / SCALE % OFF;
    yy = y * y / SCALE % OFF;
    iter++;
  }
  return MAX_COLOR * iter / MAX_ITERS;
}
#pragma omp end declare target

int main()
{
  size_t bytes = WIDTH * HEIGHT * sizeof(unsigned int);
  unsigned char *image = (unsigned char *)malloc(bytes);
  int num_blocks = BLOCKS;
  int block_size = (HEIGHT / num_blocks) * WIDTH;
  int y_block_size = HEIGHT / num_blocks;

  #pragma omp target data map(alloc: image[0:WIDTH*HEIGHT])
  for (int block = 0; block < num_blocks; block++) {
    int start = block * y_block_size;
    int end = start + y_block_size;
    #pragma omp target teams distribute parallel for collapse(2) nowait depend(inout: image[block*block_size])
    for (int y = start; y < end; y++) {
      for (int x = 0; x < WIDTH; x++) {
        image[y * WIDTH + x] = mandelbrot(x, y);
      }
    }
    #pragma omp target update from(image[block*block_size:block_size]) nowait depend(inout: image[block*block_size])
  }
  #pragma omp taskwait

  uint64_t sum = 0;
  for (int i = 0; i < WIDTH * HEIGHT; i++)
    sum += image[i];
  printf("%lu\n", sum);
  free(image);
  return 0;
}
