int main(void) {
for (uint64_t i = 18446744073709551614; i < 18446744073709551615; i += 2) { print(i); }
}
