uint64_t A[4];
int main(void) {
#pragma omp target enter data map(to: A)
#pragma omp target exit data map(from: A)
#pragma omp target exit data map(delete: A)
}
