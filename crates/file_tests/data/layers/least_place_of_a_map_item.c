uint64_t A[8];
uint64_t B[4];
int main(void) {
#pragma omp target enter data map(alloc: A[8:0]) map(to: B[1:4])
}
