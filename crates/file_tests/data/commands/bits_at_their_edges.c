int main(void) {
print(6 | 1); print(6 ^ 3); print(6 & 3);
print(3 << 0); print(3 << 63); print(18446744073709551615 >> 63);
print(~0); print(!0); print(!5); print(7 / 2); print(7 % 2);
}
