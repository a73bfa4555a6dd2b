uint64_t A[4];
int main(void) {
#pragma omp target enter data map(to: A)
for (uint64_t t = 0; t < 3; t += 1) {
#pragma omp target
for (uint64_t i = 0; i < 4; i += 1) { A[i] = A[i] + 1; }
#pragma omp target exit data map(from: A)
}
}
