uint64_t A[6];
int main(void) {
for (uint64_t i = 0; i < 6; i += 1) { A[i] = i * i * i; }
#pragma omp target teams distribute parallel for map(tofrom: A)
for (uint64_t i = 1; i < 5; i += 1) { A[i] = (A[i - 1] + A[i + 1]) / 2; }
for (uint64_t i = 0; i < 6; i += 1) { print(A[i]); }
}
