// Rodinia's pathfinder: the cheapest way down a wall. Macros with parameters, `? :`, a scalar that is private to each turn.
#include <stdint.h>
#include <stdio.h>
#define COLS 40
#define ROWS 20
#define MIN(a, b) ((a) <= (b) ? (a) : (b))
#define WALL(i, j) wall[(i) * COLS + (j)]

uint64_t wall[ROWS * COLS];
uint64_t src[COLS];
uint64_t dst[COLS];

static void init(void) {
  uint64_t seed = 7;
  for (int i = 0; i < ROWS; i++)
    for (int j = 0; j < COLS; j++) {
      seed = (seed * 1103515245 + 12345) % 2147483648;
      WALL(i, j) = (seed >> 16) % 10;
    }
  for (int j = 0; j < COLS; j++)
    dst[j] = WALL(0, j);
}

int main(int argc, char *argv[]) {
  int t, n;
  uint64_t min;
  init();
  #pragma omp target data map(to: wall) map(tofrom: dst) map(alloc: src)
  for (t = 1; t < ROWS; t++) {
    #pragma omp target teams distribute parallel for private(n)
    for (n = 0; n < COLS; n++)
      src[n] = dst[n];
    #pragma omp target teams distribute parallel for private(n, min)
    for (n = 0; n < COLS; n++) {
      min = src[n];
      if (n > 0)
        min = MIN(min, src[n - 1]);
      if (n < COLS - 1)
        min = MIN(min, src[n + 1]);
      dst[n] = WALL(t, n) + min;
    }
  }
  for (n = 0; n < COLS; n++)
    printf("%lu\n", dst[n]);
  return 0;
}
