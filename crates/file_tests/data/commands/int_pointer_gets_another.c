#include "ompc.h"
uint64_t A[4];
int f(int *p) { return p[0]; }
int main(void) { A[0] = 1; int x = 0; x = f(A); print(x); }
