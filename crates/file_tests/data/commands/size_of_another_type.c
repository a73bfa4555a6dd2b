#include "ompc.h"
#include <stdlib.h>
int main(void) { uint64_t *a = malloc(8 * sizeof(int)); int *b = malloc(8 * sizeof(int)); for (int i = 0; i < 8; i++) { a[i] = 1; b[i] = 1; } print(a[7]); free(a); free(b); }
