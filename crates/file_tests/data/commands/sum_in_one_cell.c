uint64_t A[4];
uint64_t S[1];
int main(void) {
for (uint64_t i = 0; i < 4; i += 1) { A[i] = 2 * i + 1; }
#pragma omp target teams distribute parallel for map(to: A) map(tofrom: S)
for (uint64_t i = 0; i < 4; i += 1) { S[0] = S[0] + A[i]; }
print(S[0]);
}
