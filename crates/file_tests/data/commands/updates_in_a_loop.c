uint64_t A[4];
int main(void) {
#pragma omp target enter data map(to: A)
for (uint64_t k = 0; k < 2; k += 1) {
#pragma omp target update to(A[2*k:1])
A[0] = k;
}
}
