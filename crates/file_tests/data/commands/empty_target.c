#include "ompc.h"
uint64_t A[4];
void clear(uint64_t *a) { int j; for (j = 0; j < 4; j++) a[j] = 0; }
int main(void) {
    int j = 5;
    j++;
    print(j);
    #pragma omp target enter data map(to: A)
    #pragma omp target
    ;
    { A[0] = 1; }
    #pragma omp target update from(A)
    print(A[0]);
    #pragma omp target exit data map(delete: A)
}
