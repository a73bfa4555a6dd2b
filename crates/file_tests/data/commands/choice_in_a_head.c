uint64_t A[8];
int main(void) {
for (uint64_t i = 0; i < (A[0] ? 8 : 4); i++) { A[i] = 1; }
}
