uint64_t A[4];
int main(void) {
#pragma omp target data map(tofrom: A)
{
#pragma omp target nowait depend(out: A[2:2])
for (uint64_t i = 2; i < 4; i += 1) { A[i] = i; }
#pragma omp target nowait depend(inout: A[0:2])
for (uint64_t i = 2; i < 4; i += 1) { A[i] = A[i] * 5; }
#pragma omp taskwait
}
}
