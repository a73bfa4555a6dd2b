uint64_t A[8];
uint64_t B[2];
int main(void) {
#pragma omp target enter data map(to: A, B)
#pragma omp target nowait
{ B[0] = A[3]; }
#pragma omp target nowait
{ B[1] = A[3]; }
#pragma omp taskwait
}
