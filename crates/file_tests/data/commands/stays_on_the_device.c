uint64_t A[4];
int main(void) {
#pragma omp target data map(to: A)
{
#pragma omp target map(from: A)
for (uint64_t i = 0; i < 4; i += 1) { A[i] = i; }
print(A[0]);
}
}
