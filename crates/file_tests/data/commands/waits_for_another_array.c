uint64_t A[4];
uint64_t B[4];
int main(void) {
#pragma omp target map(from: A) nowait depend(out: A)
for (uint64_t i = 0; i < 4; i += 1) { A[i] = i; }
#pragma omp target map(from: B) nowait depend(out: B)
for (uint64_t i = 0; i < 4; i += 1) { B[i] = i; }
#pragma omp taskwait depend(in: A)
print(B[0]);
#pragma omp taskwait
}
