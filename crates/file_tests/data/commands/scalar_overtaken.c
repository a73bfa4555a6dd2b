// a boxed scalar that a deferred target uses and does not name, and that the host assigns meanwhile
#include <stdint.h>
#include <stdio.h>
uint64_t A[2];
int main(void) {
    uint64_t n = 3;
#pragma omp target map(tofrom: n)
    { n = n + 1; }
#pragma omp target nowait map(from: A)
    { A[0] = n; A[1] = n; }
    n = 9;
#pragma omp taskwait
    printf("%lu\n", A[0] + n);
    return 0;
}
