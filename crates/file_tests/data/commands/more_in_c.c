#include "ompc.h"
#define M 0xFFFFFFFF
#define K0 7
const uint64_t K = 3;
enum { E = 70 };
uint64_t A[4];
int main(void) {
    uint64_t a = 5;
    uint64_t b = 3;
    print(1 << 31);
    print((a == b) << 33);
    print((b < a) << 31);
    print(4294967296 * 4294967296);
    print(9223372036854775807 + 1);
    print(~2147483648);
    print((0 - 1) | 1);
    print(a && 1 << 40);
    print(a + (0 - 1));
    print(A[1 - 2 & 3]);
    print(!a - 1);
    print(~(a < b));
    print((a < b) - (b < a));
    print((a < b) * 65536 * 65536);
    print(0xFFFFFFFF + 1);
    print(1u - 2);
    print(~0u);
    print(0x80000000 * 2);
    print(M + 1);
    print(0 - K0);
    print((a < b) - 1u);
    print(1l << 63);
    print(3000000000u + 3000000000u);
    print((0 - E) / 2);
    print(9223372036854775807l * 2);
    print(1 + 2 * 3);
    print(A[1 - 1]);
    print(0ul - 1);
    print(~0ul >> 60);
    print(1ul << 40);
    print(65536ul * 65536);
    print(a - 7);
    print((a < b) + (b < a));
    print(1 << 30);
    print(K - 7);
    print(~K);
    print(0xFFFFFFFFFF + 1);
}
