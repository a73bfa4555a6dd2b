#include "ompc.h"
#include <stdlib.h>
int main(void) {
uint64_t *a = malloc(8 * sizeof(uint64_t));
for (int i = 0; i < 8; i++) a[i] = 1;
#pragma omp target enter data map(to: a[0:8])
free(a);
uint64_t *b = malloc(8 * sizeof(uint64_t));
for (int i = 0; i < 8; i++) b[i] = 5;
#pragma omp target map(tofrom: b[0:8])
for (int i = 0; i < 8; i++) b[i] += 1;
print(b[0]);
}
