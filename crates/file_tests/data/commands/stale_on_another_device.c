uint64_t A[2];
int main(void) {
#pragma omp target enter data map(to: A)
#pragma omp target enter data map(to: A) device(1)
#pragma omp target
{ A[0] = 7; }
#pragma omp target device(1)
{ A[1] = A[0]; }
#pragma omp target update from(A[1:1]) device(1)
}
