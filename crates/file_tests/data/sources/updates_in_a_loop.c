uint64_t A[4]; uint64_t g;
int main(void) {
g = 1; print(g); for (uint64_t k = 0; k < 2; k += 1) {
#pragma omp target update to(A[2*k:1])
A[0] = k; }
for (uint64_t i = 0; i < 3; i += 1) { }
#pragma omp target update to(A)
}
