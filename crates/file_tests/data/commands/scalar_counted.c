// a counter and a flag that a target assigns, and a scalar that it captures
#include <stdint.h>
#include <stdio.h>
uint64_t A[4] = {7, 3, 9, 1};
int main(void) {
    uint64_t least = 4;
    for (int turn = 0; turn < 2; turn++) {
        uint64_t found = 0;
        uint64_t last = 0;
#pragma omp target map(to: A) map(tofrom: found, last)
        for (int i = 0; i < 4; i++) {
            if (A[i] > least) {
                found++;
                last = i;
            }
        }
        printf("%lu\n", found * 10 + last);
        least = least + 4;
    }
    return 0;
}
