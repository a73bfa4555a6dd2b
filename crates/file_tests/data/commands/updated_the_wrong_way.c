uint64_t A[4];
int main(void) {
#pragma omp target enter data map(to: A)
#pragma omp target
for (uint64_t i = 0; i < 4; i += 1) { A[i] = i + 1; }
#pragma omp target update to(A)
print(A[1]);
#pragma omp target exit data map(release: A)
}
