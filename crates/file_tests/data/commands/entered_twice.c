uint64_t A[4];
int main(void) {
#pragma omp target enter data map(to: A)
#pragma omp target enter data map(to: A)
#pragma omp target
for (uint64_t i = 0; i < 4; i += 1) { A[i] = i; }
#pragma omp target exit data map(from: A)
print(A[0]);
}
