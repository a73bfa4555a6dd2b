uint64_t A[8];
int main(void) {
#pragma omp target teams distribute parallel for
for (uint64_t i = 0; i < 7; i += 1) { A[i + 1] = A[i]; }
}
