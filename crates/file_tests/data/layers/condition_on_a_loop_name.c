uint64_t A[8];
uint64_t B[4];
int main(void) {
for (uint64_t i = 0; i < 4; i += 1) { if (i > 0) { A[i - 1] = i; } }
}
