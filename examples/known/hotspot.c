// Rodinia hotspot: the temperature of a chip on a grid; at the border a cell is its own neighbour.
#include <stdint.h>
#include <stdio.h>
#define ROWS 32
#define COLS 32
#define STEPS 20

uint64_t temp[ROWS * COLS], power[ROWS * COLS], result[ROWS * COLS];

int main() {
  for (size_t i = 0; i < ROWS * COLS; i++) {
    temp[i] = 32000 + i % 97;
    power[i] = i % 13;
  }
  #pragma omp target data map(tofrom: temp) map(to: power) map(alloc: result)
  {
    for (size_t t = 0; t < STEPS; t++) {
      #pragma omp target teams distribute parallel for collapse(2) num_teams(8) thread_limit(64)
      for (size_t r = 0; r < ROWS; r++)
        for (size_t c = 0; c < COLS; c++) {
          uint64_t here = temp[COLS * r + c];
          uint64_t n = here, s = here, e = here, w = here;
          if (r > 0) n = temp[COLS * r + c - COLS];
          if (r < ROWS - 1) s = temp[COLS * r + c + COLS];
          if (c < COLS - 1) e = temp[COLS * r + c + 1];
          if (c > 0) w = temp[COLS * r + c - 1];
          result[COLS * r + c] = (4 * here + n + s + e + w) / 8 + power[COLS * r + c];
        }
      #pragma omp target teams distribute parallel for
      for (size_t k = 0; k < ROWS * COLS; k++)
        temp[k] = result[k];
    }
  }
  printf("%lu\n", temp[0]);
  printf("%lu\n", temp[511]);
  printf("%lu\n", temp[ROWS * COLS - 1]);
  return 0;
}
