uint64_t A[8];
uint64_t B[4];
int main(void) {
#pragma omp target enter data depend(in: A[8:1]) map(to: A[1:18446744073709551615])
}
