#include "ompc.h"
#define M 0xFFFFFFFF
#define K0 7
const uint64_t K = 3;
enum { E = 70 };
uint64_t A[4];
int main(void) {
    uint64_t a = 5;
    uint64_t b = 3;
    print((a < b) - 1 > 0);
    print((0 - 7) / 2);
    print(~0 >> 60);
    print(1 << 40);
    print(65536 * 65536);
    print(2147483647 + 1);
    print(~0 < 1);
}
