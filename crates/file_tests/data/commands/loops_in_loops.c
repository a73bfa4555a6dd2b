int main(void) {
for (uint64_t i = 0; i < 2; i += 1) {
for (uint64_t j = 0; j < 3; j += 1) { print(i * 10 + j); }
for (uint64_t j = 0; j < 0; j += 1) { print(99); }
}
for (uint64_t i = 1; i < 6; i += 2) { print(i); }
}
