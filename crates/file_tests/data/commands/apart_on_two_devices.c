uint64_t A[4];
int main(void) {
#pragma omp target enter data map(to: A[0:3])
#pragma omp target enter data map(to: A[1:3]) device(1)
}
