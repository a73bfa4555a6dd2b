uint64_t A[8];
uint64_t B[4];
int main(void) {
for (uint64_t k = 0; k < 0; k += 1) { A[1] = 1; }
}
