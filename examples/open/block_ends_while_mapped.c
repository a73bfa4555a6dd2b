#include "ompc.h"
int main(void) {
{ uint64_t s = 1;
#pragma omp target enter data map(to: s)
}
{ uint64_t t = 2;
#pragma omp target map(tofrom: t)
{ t = t + 1; }
print(t);
}
}
