uint64_t A[8];
int main(void) {
uint64_t t;
#pragma omp target teams distribute parallel for private(t)
for (int i = 0; i < 8; i++) { A[i] = t; t = A[i]; }
}
