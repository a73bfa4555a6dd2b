uint64_t A[8];
uint64_t B[4];
int main(void) {
#pragma omp target enter data map(to: A[0:8], B[3:1])
}
