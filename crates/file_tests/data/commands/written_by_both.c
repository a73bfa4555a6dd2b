uint64_t A[4];
int main(void) {
#pragma omp target enter data map(to: A)
for (uint64_t t = 0; t < 6; t += 1) {
#pragma omp target update from(A[2:2])
A[0] = A[2] + A[3];
A[1] = A[0];
#pragma omp target update to(A[0:2])
#pragma omp target
{ A[3] = A[2]; A[2] = A[1]; }
}
#pragma omp target update from(A)
}
