#include "ompc.h"
// A sum and the bits of two cells, the bits without a word that turns may update them so.
uint64_t A[4] = {1, 2, 3, 4};
uint64_t s[1], bits[2];
int main(void) {
#pragma omp target teams distribute parallel for map(to: A) map(tofrom: s, bits) reduction(+: s)
    for (uint64_t i = 0; i < 4; i++) {
        s[0] += A[i];
        bits[i & 1] |= A[i];
    }
    print(s[0]);
    print(bits[0]);
    print(bits[1]);
    return 0;
}
