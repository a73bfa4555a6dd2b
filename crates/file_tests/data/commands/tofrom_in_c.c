#include "ompc.h"
uint64_t A[4];
int main(void) {
    #pragma omp target map(tofrom: A)
    { A[0] = 1 - 2; }
    print(A[0]);
}
