uint64_t A[8];
uint64_t B[4];
int main(void) {
#pragma omp target enter data map(alloc: A[0:4])
#pragma omp target enter data map(alloc: A[0:4])
#pragma omp target exit data map(delete: A[0:4])
}
