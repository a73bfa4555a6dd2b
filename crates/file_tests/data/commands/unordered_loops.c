uint64_t A[4];
uint64_t B[9];
int main(void) {
#pragma omp target teams distribute parallel for num_teams(2) schedule(static, 1) nowait device(1) map(from: A)
for (uint64_t i = 0; i < 4; i += 1) { A[i] = i; }
#pragma omp taskwait
#pragma omp target teams loop collapse(2)
for (uint64_t i = 0; i < 3; i += 1) {
for (uint64_t j = 0; j < 3; j += 1) { B[3 * i + j] = i * j; }
}
#pragma omp target simd
for (uint64_t i = 0; i < 9; i += 1) { B[i] = B[i] + 1; }
print(B[8]);
}
