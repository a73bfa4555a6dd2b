uint64_t A[8]; uint64_t B[8]; uint64_t C[8]; uint64_t g;
int main(void) { uint64_t s = 1;
for (uint64_t i = 0; i < 1; i += 1) {
for (uint64_t j = 0; j < 1; j += 1) {
#pragma omp target enter data map(to: A[0:4]) map(always, alloc: B) depend(in: A) nowait
#pragma omp target exit data map(from: A[i:1]) map(release: B) map(always, delete: C)
#pragma omp target update to(A) from(B[4*i+1:j+i+2]) depend(out: A)
#pragma omp taskwait depend(inout: A, B)
#pragma omp taskwait
  #pragma omp target map(always, tofrom: A[2*j:4]) nowait map(from: B)
{ }
#pragma omp target data map(alloc: A, B)
{ }
} } }
