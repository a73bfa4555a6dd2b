#include "ompc.h"
uint64_t B[1];
int main(void) {
{ uint64_t s = 1;
#pragma omp target enter data map(to: s)
}
{ uint64_t s = 2;
#pragma omp target update to(s)
#pragma omp target map(alloc: s) map(from: B)
{ B[0] = s; }
}
print(B[0]);
}
