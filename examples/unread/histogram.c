// HeCBench histogram (from CUB's): a global-memory atomic histogram of pixels
#include <stdint.h>
#include <stdio.h>
#include <stdlib.h>

#define NUM_BINS 256
#define ACTIVE_CHANNELS 3
#define WIDTH 64
#define HEIGHT 64

struct uchar4 { uint64_t x, y, z, w; };

struct uchar4 in[WIDTH * HEIGHT];
unsigned int histogram[ACTIVE_CHANNELS * NUM_BINS];
unsigned int reference[ACTIVE_CHANNELS * NUM_BINS];

void InitHistogram(struct uchar4 *image, int width, int height)
{
  uint64_t seed = 0x12345;
  for (int i = 0; i < width * height; i++) {
    seed = seed * 6364136223846793005ul + 1442695040888963407ul;
    image[i].x = (seed >> 33) & 0xff;
    image[i].y = (seed >> 41) & 0xff;
    image[i].z = (seed >> 49) & 0xff;
    image[i].w = 255;
  }
}

void histogram_gmem_atomics(struct uchar4 *in, int width, int height, unsigned int *out)
{
  #pragma omp target teams distribute parallel for num_teams(64) thread_limit(256)
  for (int t = 0; t < ACTIVE_CHANNELS * NUM_BINS; t++)
    out[t] = 0;

  #pragma omp target teams distribute parallel for collapse(2) thread_limit(256)
  for (int row = 0; row < height; row++)
    for (int col = 0; col < width; col++) {
      unsigned int r = (unsigned int)(in[row * width + col].x);
      unsigned int g = (unsigned int)(in[row * width + col].y);
      unsigned int b = (unsigned int)(in[row * width + col].z);
      #pragma omp atomic update
      out[0 * NUM_BINS + r]++;
      #pragma omp atomic update
      out[1 * NUM_BINS + g]++;
      #pragma omp atomic update
      out[2 * NUM_BINS + b]++;
    }
}

int main(int argc, char **argv)
{
  InitHistogram(in, WIDTH, HEIGHT);

  for (int i = 0; i < WIDTH * HEIGHT; i++) {
    reference[in[i].x]++;
    reference[NUM_BINS + in[i].y]++;
    reference[2 * NUM_BINS + in[i].z]++;
  }

  #pragma omp target data map(to: in[0:WIDTH * HEIGHT]) map(from: histogram[0:ACTIVE_CHANNELS * NUM_BINS])
  {
    histogram_gmem_atomics(in, WIDTH, HEIGHT, histogram);
  }

  int errors = 0;
  for (int i = 0; i < ACTIVE_CHANNELS * NUM_BINS; i++)
    if (histogram[i] != reference[i]) errors++;
  printf("%d\n", errors);
  printf("%u\n", histogram[17]);
  return errors;
}
