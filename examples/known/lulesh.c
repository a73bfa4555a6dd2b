// LULESH: an element gathers from its eight nodes, and gives its forces back to them.
#include <stdint.h>
#include <stdio.h>
#define NODES 128
#define ELEMENTS 64
#define CYCLES 4

uint64_t nodelist[8 * ELEMENTS], x[NODES], volume[ELEMENTS], fx[NODES];

int main() {
  for (size_t i = 0; i < 8 * ELEMENTS; i++)
    nodelist[i] = (i * 13 + i / 8) % 125;
  for (size_t i = 0; i < NODES; i++)
    x[i] = 10 * i;
  #pragma omp target enter data map(to: nodelist, x, fx) map(alloc: volume)
  for (size_t cycle = 0; cycle < CYCLES; cycle++) {
    #pragma omp target teams distribute parallel for
    for (size_t e = 0; e < ELEMENTS; e++) {
      uint64_t s = 0;
      for (size_t k = 0; k < 8; k++)
        s += x[nodelist[8 * e + k] & 127];
      volume[e] = s / 8;
    }
    #pragma omp target
    for (size_t e = 0; e < ELEMENTS; e++)
      for (size_t k = 0; k < 8; k++)
        fx[nodelist[8 * e + k] & 127] += volume[e] % 7;
    #pragma omp target teams distribute parallel for
    for (size_t n = 0; n < NODES; n++) {
      x[n] += fx[n];
      fx[n] = 0;
    }
  }
  #pragma omp target exit data map(from: x) map(delete: nodelist, fx, volume)
  printf("%lu\n", x[0]);
  printf("%lu\n", x[64]);
  printf("%lu\n", x[124]);
  return 0;
}
