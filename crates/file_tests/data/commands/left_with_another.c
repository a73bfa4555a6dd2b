uint64_t A[4];
uint64_t B[4];
int main(void) {
#pragma omp target enter data map(to: A, B)
#pragma omp target exit data map(from: A)
#pragma omp target exit data map(from: A, B)
#pragma omp target enter data map(to: B)
#pragma omp target exit data \
    map(release: A)
#pragma omp target exit data map(release: B)
}
