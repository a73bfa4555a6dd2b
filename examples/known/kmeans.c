// Rodinia kmeans: the device finds the nearest centre of each point, the host moves the centres.
#include <stdint.h>
#include <stdio.h>
#define POINTS 128
#define CENTRES 4
#define ROUNDS 6

uint64_t points[POINTS][2], centres[CENTRES][2], member[POINTS];
uint64_t sum[CENTRES][2], count[CENTRES];

int main() {
  uint64_t delta = 0;
  for (size_t p = 0; p < POINTS; p++)
    for (size_t d = 0; d < 2; d++)
      points[p][d] = ((2 * p + d) * 7919 + 13) % 1000;
  for (size_t k = 0; k < CENTRES; k++) {
    centres[k][0] = points[k][0];
    centres[k][1] = points[k][1];
  }
  #pragma omp target data map(to: points) map(tofrom: member) map(alloc: centres)
  {
    for (size_t round = 0; round < ROUNDS; round++) {
      delta = 0;
      #pragma omp target update to(centres)
      #pragma omp target teams distribute parallel for reduction(+: delta)
      for (size_t p = 0; p < POINTS; p++) {
        uint64_t best = 0, distance = 1000000000;
        for (size_t k = 0; k < CENTRES; k++) {
          uint64_t dx = points[p][0] - centres[k][0], dy = points[p][1] - centres[k][1];
          if (dx * dx + dy * dy < distance) {
            distance = dx * dx + dy * dy;
            best = k;
          }
        }
        if (member[p] != best) delta++;
        member[p] = best;
      }
      #pragma omp target update from(member)
      for (size_t k = 0; k < CENTRES; k++) {
        count[k] = 0;
        sum[k][0] = 0;
        sum[k][1] = 0;
      }
      for (size_t p = 0; p < POINTS; p++) {
        count[member[p] & 3]++;
        sum[member[p] & 3][0] += points[p][0];
        sum[member[p] & 3][1] += points[p][1];
      }
      for (size_t k = 0; k < CENTRES; k++)
        for (size_t d = 0; d < 2; d++)
          if (count[k] > 0) {
            uint64_t rest = sum[k][d], mean = 0;
            for (size_t s = 0; s < 1000; s++)
              if (rest >= count[k]) {
                rest -= count[k];
                mean++;
              }
            centres[k][d] = mean;
          }
    }
  }
  printf("%lu\n", delta);
  for (size_t k = 0; k < CENTRES; k++) {
    printf("%lu\n", centres[k][0]);
    printf("%lu\n", centres[k][1]);
  }
  return 0;
}
