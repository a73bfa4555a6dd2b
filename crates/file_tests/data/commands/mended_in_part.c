uint64_t A[4];
uint64_t B[8];
int main(void) {
#pragma omp target map(to: A)
for (uint64_t i = 0; i < 4; i += 1) { A[i] = i; }
print(A[1]);
#pragma omp target map(tofrom: B)
#pragma omp teams distribute parallel for
for (uint64_t i = 0; i < 7; i += 1) { B[i] = B[i + 1]; }
print(B[1]);
}
