uint64_t A[4];
uint64_t B[4];
int main(void) {
#pragma omp target data map(to: A) map(from: B)
{
#pragma omp target nowait depend(out: A[0:2])
for (uint64_t i = 0; i < 2; i += 1) { A[i] = i; }
#pragma omp target nowait
for (uint64_t i = 0; i < 2; i += 1) { B[i] = A[i]; }
#pragma omp taskwait
}
}
