// HeCBench histogram-omp: bins that are counted up, by all turns in any order.
#include <stdint.h>
#include <stdio.h>
#define NPIX 4096
#define BINS 256

uint64_t data[NPIX], hist[BINS];

int main() {
  for (size_t i = 0; i < NPIX; i++)
    data[i] = (i * 2654435761) >> 5;
  #pragma omp target teams distribute parallel for map(to: data[0:NPIX]) map(tofrom: hist[0:BINS])
  for (int i = 0; i < NPIX; i++) {
    #pragma omp atomic update
    hist[data[i] & 0xFF]++;
  }
  for (size_t b = 0; b < BINS; b += 37)
    printf("%lu\n", hist[b]);
  return 0;
}
