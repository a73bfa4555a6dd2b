#include "ompc.h"
#define M 4294967297ul
#define N (0xFFFFFFFF + 3)
uint64_t w = 5;
int pick(uint64_t u) { return u > 3 ? 2ul : 1ul; }
uint64_t half(uint64_t n) { return n / 2; }
int main(void) {
    int n = M;
    int mask = 0xFFFFFFFF;
    uint64_t k = 0xFFFFFFFF + 4;
    for (int i = 0; i < 4; i++) { int h = (i * 2654435761u) >> 22; print(h); }
    print(n + mask + w % N + k);
    w = pick(7);
    w = half(4u * 1073741824u);
    w = half(3000000000);
    print(w);
}
