uint64_t A[1];
int main(void) {
#pragma omp target enter data map(to: A)
#pragma omp target parallel for map(alloc: A)
for (uint64_t i = 0; i < 2; i += 1) { A[0] = A[0] + 1; }
#pragma omp target update from(A)
print(A[0]);
}
