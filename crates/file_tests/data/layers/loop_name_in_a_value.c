uint64_t A[8];
uint64_t B[4];
int main(void) {
for (uint64_t k = 0; k < 3; k += 1) {
for (uint64_t i = 0; i < 4; i += 1) { A[i] = A[i + 1] ^ k; }
}
}
