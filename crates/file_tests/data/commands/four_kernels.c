uint64_t A[1];
uint64_t B[1];
uint64_t C[1];
uint64_t D[1];
int main(void) {
#pragma omp target map(tofrom: A) nowait
{ A[0] = 1; }
#pragma omp target map(tofrom: B) nowait
{ B[0] = 2; }
#pragma omp target map(tofrom: C) nowait
{ C[0] = 3; }
#pragma omp target map(tofrom: D) nowait
{ D[0] = 4; }
#pragma omp taskwait
print(A[0]); print(B[0]); print(C[0]); print(D[0]);
}
