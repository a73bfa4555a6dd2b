uint64_t A[4];
int main(void) {
#pragma omp target enter data map(to: A) device(2)
#pragma omp target update to(A)
#pragma omp target exit data map(release: A) device(2)
}
