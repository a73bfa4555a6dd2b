uint64_t A[16];
uint64_t B[4];
int main(void) {
#pragma omp target teams distribute parallel for collapse(2) num_teams(2) schedule(static, 2) map(from: A)
for (uint64_t i = 0; i < 4; i += 1) {
  for (uint64_t j = 0; j < 4; j += 1) { A[4 * i + j] = i; }
}
#pragma omp target parallel for
for (uint64_t i = 0; i < 4; i += 1) {
  for (uint64_t j = 0; j < 4; j += 1) { B[i] = j; }
}
#pragma omp target
for (uint64_t i = 0; i < 4; i += 1) { B[i] = A[i]; }
print(B[0]);
}
