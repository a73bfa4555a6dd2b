// The tutorials' picture by blocks of rows: the copy of a block goes on beside the kernel of the next.
#include <stdint.h>
#include <stdio.h>
#define WIDTH 32
#define PIXELS (WIDTH * WIDTH)
#define BLOCK 256
#define MOST 40

uint64_t image[PIXELS];

int main() {
  #pragma omp target data map(alloc: image)
  {
    for (size_t block = 0; block < PIXELS / BLOCK; block++) {
      #pragma omp target teams distribute parallel for nowait \
          depend(out: image[BLOCK * block:BLOCK])
      for (size_t k = 0; k < BLOCK; k++) {
        uint64_t cx = (BLOCK * block + k) % WIDTH, cy = (BLOCK * block + k) / WIDTH;
        uint64_t zx = 0, zy = 0, n = 0;
        while (n < MOST && zx + zy < 200) {
          uint64_t t = (zx * zx + zy) / 16 + cx;
          zy = zx * zy / 8 + cy;
          zx = t;
          n++;
        }
        image[BLOCK * block + k] = n;
      }
      #pragma omp target update from(image[BLOCK * block:BLOCK]) nowait \
          depend(in: image[BLOCK * block:BLOCK])
    }
    #pragma omp taskwait
  }
  for (size_t i = 0; i < PIXELS; i += 93)
    printf("%lu\n", image[i]);
  return 0;
}
