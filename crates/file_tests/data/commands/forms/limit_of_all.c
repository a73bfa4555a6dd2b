uint64_t A[4];
int main(void) {
for (uint64_t i = 0; i <= 18446744073709551615; i++) { A[i & 3] = i; }
}
