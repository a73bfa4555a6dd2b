uint64_t A[4]; uint64_t B[2];
int main(void) { { for (uint64_t k = 0; k < 3; k += 1) {
#pragma omp target data map(to: A)
{
#pragma omp target data map(to: B)
{
#pragma omp target
for (uint64_t i = 0; i < 2; i += 1) { A[i] = B[k & 1]; }
} } } } }
