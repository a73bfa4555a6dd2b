uint64_t A[4];
uint64_t B[2];
int main(void) {
#pragma omp target enter data map(to: A)
for (uint64_t i = 0; i < 2; i += 1) {
#pragma omp target update to(A[2 * i:1])
A[0] = i;
}
}
