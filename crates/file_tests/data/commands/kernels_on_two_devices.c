uint64_t A[8];
uint64_t B[8];
int main(void) {
B[0] = 3;
#pragma omp target map(tofrom: A) nowait
for (uint64_t i = 0; i < 8; i += 1) { A[i] = i; }
#pragma omp target map(tofrom: B) nowait device(1)
for (uint64_t i = 0; i < 8; i += 1) { B[i] = B[i] + 10; }
#pragma omp taskwait
print(A[7]); print(B[0]);
}
