uint64_t A[1];
uint64_t B[1];
uint64_t C[1];
int main(void) {
#pragma omp target map(tofrom: C) nowait depend(out: A)
{ C[0] = 1; }
#pragma omp target map(tofrom: B) nowait depend(in: A) depend(out: B)
{ B[0] = 2; }
#pragma omp target map(tofrom: C) nowait depend(in: B)
{ C[0] = C[0] + 5; }
#pragma omp taskwait
print(C[0]); print(B[0]);
}
