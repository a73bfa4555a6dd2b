// a sum in a scalar without the word for it
#include <stdint.h>
#include <stdio.h>
uint64_t a[4];
int main(void) {
    uint64_t sum = 0;
#pragma omp target teams distribute parallel for map(to: a) map(tofrom: sum)
    for (int i = 0; i < 4; i++) sum += a[i];
    printf("%lu\n", sum);
    return 0;
}
