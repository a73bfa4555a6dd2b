uint64_t A[9];
uint64_t X[3];
uint64_t Y[3];
int main(void) {
for (uint64_t i = 0; i < 9; i += 1) { A[i] = i + 1; }
for (uint64_t i = 0; i < 3; i += 1) { X[i] = 10 - i; }
#pragma omp target teams distribute parallel for collapse(2) map(to: A, X) map(tofrom: Y)
for (uint64_t i = 0; i < 3; i += 1) {
  for (uint64_t k = 0; k < 3; k += 1) { Y[i] = Y[i] + A[3 * i + k] * X[k]; }
}
for (uint64_t i = 0; i < 3; i += 1) { print(Y[i]); }
}
