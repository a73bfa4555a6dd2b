uint64_t A[8];
uint64_t B[4];
int main(void) {
#pragma omp target exit data map(release: A[2:3])
}
