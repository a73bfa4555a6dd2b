uint64_t A[4];
int main(void) {
for (uint64_t i = 0; i < 1048576; i += 1) { A[0] = i; }
#pragma omp taskwait
for (uint64_t i = 0; i < 1048576; i += 1) { A[1] = i; }
#pragma omp taskwait
for (uint64_t i = 0; i < 1048576; i += 1) { A[2] = i; }
#pragma omp taskwait
for (uint64_t i = 0; i < 1048576; i += 1) { A[3] = i; }
#pragma omp taskwait
#pragma omp target map(to: A)
{ A[0] = 1; }
print(A[0]);
}
