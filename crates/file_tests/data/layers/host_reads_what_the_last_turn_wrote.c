uint64_t A[8];
uint64_t B[2];
int main(void) {
#pragma omp target enter data map(to: A)
for (uint64_t i = 0; i < 3; i += 1) {
#pragma omp target
{ A[i] = 1; }
}
print(A[2]);
}
