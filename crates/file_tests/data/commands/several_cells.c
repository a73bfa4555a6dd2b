uint64_t A[8];
uint64_t B[2];
int main(void) {
#pragma omp target enter data map(to: A, B)
#pragma omp target nowait
{ B[0] = 1; A[7] = 1; B[1] = A[5]; }
#pragma omp target nowait
{ B[0] = A[7]; A[5] = 1; }
#pragma omp taskwait
}
