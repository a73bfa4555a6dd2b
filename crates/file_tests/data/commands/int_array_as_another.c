#include "ompc.h"
int A[4];
uint64_t f(uint64_t *p) { return p[0]; }
int main(void) { A[0] = 1; A[1] = 1; uint64_t x = 0; x = f(A); print(x); }
