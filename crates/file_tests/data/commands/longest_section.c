uint64_t A[4];
int main(void) {
#pragma omp target enter data map(to: A[1:18446744073709551615])
}
