uint64_t A[8];
int main(void) {
#pragma omp target enter data map(to: A)
#pragma omp target update from(A[6:2]) nowait
A[1] = 1; print(A[6]); A[5] = 1;
#pragma omp taskwait
}
