uint64_t A[2];
uint64_t B[2];
int main(void) {
#pragma omp target enter data map(to: A)
A[0] = 5;
#pragma omp target map(to: A) map(from: B)
for (uint64_t i = 0; i < 2; i += 1) { B[i] = A[i] + 1; }
print(B[0]);
}
