uint64_t A[8];
uint64_t B[2];
int main(void) {
#pragma omp target enter data map(to: A)
for (uint64_t i = 0; i < 2; i += 1) {
#pragma omp target
for (uint64_t k = 0; k < 8; k += 1) { A[k] = 1; }
}
print(A[7]);
}
