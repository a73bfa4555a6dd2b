uint64_t A[12];
int main(void) {
for (uint64_t i = 0; i < 12; i += 1) { A[i] = i * i; }
#pragma omp target teams distribute parallel for num_teams(2)
for (uint64_t i = 1; i < 3; i += 1) {
  for (uint64_t j = 0; j < 4; j += 1) { A[4 * i + j] = A[4 * i - 4 + j] + 1; }
}
for (uint64_t i = 8; i < 12; i += 1) { print(A[i]); }
}
