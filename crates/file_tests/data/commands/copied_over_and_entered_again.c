uint64_t A[4];
uint64_t B[4];
int main(void) {
#pragma omp target enter data map(to: A)
A[1] = 5;
#pragma omp target exit data map(from: A)
#pragma omp target map(to: A) map(from: B)
for (uint64_t i = 0; i < 4; i += 1) { B[i] = A[i]; }
print(B[1]);
}
