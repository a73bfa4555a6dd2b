uint64_t A[8];
int main(void) {
for (uint64_t i = 0; i < 8; i++) { A[i] = A[i + 1] > 2 ? 1 : 2; }
}
