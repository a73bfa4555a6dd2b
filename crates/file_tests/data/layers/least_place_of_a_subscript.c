uint64_t A[8];
uint64_t B[4];
int main(void) {
for (uint64_t i = 9; i < 10; i += 1) {
#pragma omp taskwait
for (uint64_t k = 0; k < 2; k += 1) {
if (k) { print(0 && A[i]); }
if (k == 0) { A[8] = read(); }
}
}
}
