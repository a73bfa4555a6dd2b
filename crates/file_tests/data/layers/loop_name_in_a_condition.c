uint64_t A[8];
uint64_t B[4];
int main(void) {
for (uint64_t k = 0; k < 2; k += 1) { if (k) { A[1] = 1; } else { A[0] = A[2]; } }
}
