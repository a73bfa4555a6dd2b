#include "ompc.h"
#include <stdlib.h>
int main(void) {
uint64_t *a = malloc(8 * sizeof(uint64_t));
#pragma omp target map(tofrom: a[0:8]) depend(inout: a[0:8]) nowait
for (int i = 0; i < 8; i++) a[i] = i;
#pragma omp taskwait depend(in: a)
print(a[7]);
#pragma omp taskwait
free(a);
}
