uint64_t A[8];
uint64_t B[8];
uint64_t C[8];
int main(void) {
#pragma omp target map(tofrom: A) nowait
{ A[0] = A[0] + 1; }
#pragma omp target map(tofrom: A) nowait
{ A[0] = A[0] + 1; }
#pragma omp target map(tofrom: A) map(to: C) nowait
{ A[0] = A[0] + 1; C[0] = 1; }
#pragma omp taskwait
print(C[0]);
print(A[0]);
}
