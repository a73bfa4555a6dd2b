uint64_t A[4];
uint64_t B[4];
uint64_t C[4];
int main(void) {
#pragma omp target map(to: A) map(from: B) nowait depend(inout: A)
for (uint64_t i = 0; i < 4; i += 1) { B[i] = A[i] + 1; }
#pragma omp target map(to: A) map(from: C) nowait depend(inout: A)
for (uint64_t i = 0; i < 4; i += 1) { C[i] = A[i] + 2; }
#pragma omp taskwait
print(B[3]); print(C[3]);
}
