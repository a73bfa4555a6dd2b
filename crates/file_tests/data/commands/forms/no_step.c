uint64_t A[4];
int main(void) {
for (uint64_t i = 0; i < 4; i += 1 - 1) { A[i] = i; }
}
