uint64_t A[8];
int main(void) {
for (uint64_t k = 0; k < 2; k += 1) {
for (uint64_t d = 0; d < 6; d += 3) {
#pragma omp target enter data map(to: A[2*d:2]) device(d) nowait
#pragma omp target data device(k) map(to: A)
{
#pragma omp target device(d) map(to: A[k:1])
{ A[d] = k; }
}
#pragma omp target update device(d) from(A[2*d:2])
}
}
}
