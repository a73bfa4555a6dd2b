uint64_t A[4];
uint64_t B[4];
int main(void) {
#pragma omp target data map(tofrom: A) map(alloc: B)
for (uint64_t t = 0; t < 5; t += 1) {
#pragma omp target
for (uint64_t i = 0; i < 4; i += 1) { B[i] = A[i] + t; }
#pragma omp target
for (uint64_t i = 0; i < 4; i += 1) { A[i] = B[i]; }
}
}
