uint64_t A[4], s[1];
int main(void) {
#pragma omp target teams distribute parallel for reduction(+: s)
for (int i = 0; i < 4; i++) { s[0] += A[i]; A[i] = s[0]; }
}
