uint64_t A[4];
int main(void) {
#pragma omp target enter data map(to: A)
for (uint64_t t = 0; t < 4; t += 1) {
#pragma omp target update to(A)
for (uint64_t u = 0; u < 6; u += 1) {
#pragma omp target
{ A[0] = A[1] + u; }
}
#pragma omp target update from(A)
A[2] = A[0];
}
#pragma omp target update to(A)
#pragma omp target exit data map(from: A)
}
