uint64_t A[8];
uint64_t B[2];
int main(void) {
#pragma omp target enter data map(to: A)
#pragma omp target nowait
{ A[3] = 1; }
#pragma omp target nowait
{ A[3] = 2; }
#pragma omp taskwait
}
