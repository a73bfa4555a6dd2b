// The values in comments are those of C, where each literal is a `uint64_t`.
uint64_t A[256]; uint64_t g;
int main(void) {
for (uint64_t k = 0; k < 256; k += 1) { A[k] = k + 100; }
g = 7; uint64_t s = 8;
for (uint64_t i = 3; i < 4; i += 1) {
print(2 + 3 * 4); // 14
print(2 * 3 + 4); // 10
print(10 - 4 - 3); // 3
print(100 / 10 / 5); // 2
print(100 / 7 % 4); // 2
print(7 * 10 / 4); // 17
print(1 << 4 >> 2); // 4
print(1 + 2 << 3); // 24
print(1 << 3 < 9); // 1
print(1 | 6 ^ 3 & 5); // 7
print(1 ^ 3 & 2 == 2); // 0
print(4 < 5 == 1); // 1
print(5 > 4 > 3); // 0
print(3 <= 3); // 1
print(3 >= 4); // 0
print(3 != 3); // 0
print(1 || 0 && 0); // 1
print(2 | 1 && 0); // 0
print(!0 + 1); // 2
print(!~0); // 0
print(~0 == 18446744073709551615); // 1
print(!!5 * 2); // 2
print((2 + 3) * 4); // 20
print(A[2] + i); // 105
print(A[i + 1] * 2); // 208
print(A[A[0]] - g * s); // 144
print(1 << 63 >> 63); // 1
}
}
