// the copy of a scalar back is forgotten
#include <stdint.h>
#include <stdio.h>
int main(void) {
    uint64_t count = 0;
#pragma omp target map(to: count)
    { count = count + 1; }
    printf("%lu\n", count);
    return 0;
}
