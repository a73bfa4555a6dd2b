uint64_t A[8];
uint64_t B[4];
int main(void) {
#pragma omp target enter data map(to: B[3:1], A[1:18446744073709551615])
}
