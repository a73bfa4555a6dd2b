#include "ompc.h"
uint64_t A[4];
int main(void) {
    uint64_t a = 5;
    print(9223372036854775808);
    print(9223372036854775808ul / 2);
    printf("%lu\n", a < 3);
    printf("%lu\n", 7);
    printf("%lu\n", 7ul + (a < 3));
    for (uint64_t i = 0; i < 4; i++) {
        A[i] += ~0;
        A[(i < 3) - 1 & 3] += 1;
    }
    if (1 - 2 > 0) { a = 1; }
}
