#include "ompc.h"
#include <stdlib.h>
uint64_t *a;
int main(void) { a = malloc(8 * sizeof(int)); for (int i = 0; i < 8; i++) a[i] = 1; print(a[7]); free(a); }
