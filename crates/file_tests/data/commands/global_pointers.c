#include <stdint.h>
#include <stdio.h>
#include <stdlib.h>
#define C 8

uint64_t *a;
uint64_t *b;
uint64_t *c;

int init() {
  for (int i = 0; i < C; i++) {
    for (int j = 0; j < C; j++) {
      b[j + i * C] = 1;
    }
    a[i] = 1;
    c[i] = 0;
  }
  return 0;
}

int Mult() {
  #pragma omp target map(to: a[0:C], b[0:C*C]) map(tofrom: c[0:C]) device(0)
  {
    #pragma omp teams distribute parallel for
    for (int i = 0; i < C; i++) {
      for (int j = 0; j < C; j++) {
        c[i] += b[j + i * C] * a[j];
      }
    }
  }
  return 0;
}

int check() {
  uint64_t wrong = 0;
  for (int i = 0; i < C; i++) {
    wrong += c[i] != C ? 1 : 0;
  }
  printf("%lu\n", wrong);
  return 0;
}

int main(int argc, char **argv) {
  a = malloc(C * sizeof(uint64_t));
  b = malloc(C * C * sizeof(uint64_t));
  c = malloc(C * sizeof(uint64_t));
  init();
  Mult();
  check();
  free(a);
  free(b);
  free(c);
  return 0;
}
