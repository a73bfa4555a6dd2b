uint64_t A[4];
int main(void) {
#pragma omp target teams distribute parallel for simd collapse(2) num_teams(2) map(from: A) schedule(static)
for (uint64_t i = 0; i < 4; i += 1) {
  for (uint64_t j = 0; j < 2; j += 1) { A[i] = j; }
}
print(A[3]);
}
