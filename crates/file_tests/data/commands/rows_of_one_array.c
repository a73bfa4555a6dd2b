uint64_t A[9];
int main(void) {
#pragma omp target parallel for
for (uint64_t i = 0; i < 3; i += 1) {
for (uint64_t j = 0; j < 3; j += 1) { A[3 * i] = A[3 * i] + j; }
}
#pragma omp target parallel for collapse(2)
for (uint64_t i = 0; i < 3; i += 1) {
for (uint64_t j = 0; j < 3; j += 1) { A[3 * i] = A[3 * i] + j; }
}
}
