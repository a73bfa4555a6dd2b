uint64_t A[4];
int main(void) {
#pragma omp target parallel for map(tofrom: A)
for (uint64_t i = 0; i < 3; i += 1) { A[i + 1] = A[i]; }
print(A[3]);
}
