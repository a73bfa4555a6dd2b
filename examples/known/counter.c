// DRACC: a counter that every turn adds to, in any order.
#include <stdint.h>
#include <stdio.h>
#define C 5000

int main(void) {
  uint64_t countervar = 0;
  #pragma omp target map(tofrom: countervar) device(0)
  #pragma omp teams distribute parallel for
  for (int i = 0; i < C; i++) {
    #pragma omp atomic update
    countervar++;
  }
  printf("%lu\n", countervar);
  return 0;
}
