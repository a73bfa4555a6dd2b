uint64_t A[8];
uint64_t B[2];
int main(void) {
#pragma omp target enter data map(to: A)
#pragma omp target map(tofrom: A[0:4]) nowait
{ A[0] = 1; }
#pragma omp target map(tofrom: A[4:4]) nowait
{ A[4] = 10; }
#pragma omp taskwait
#pragma omp target update from(A)
A[0] = 0;
#pragma omp target exit data map(always, delete: A) nowait
}
