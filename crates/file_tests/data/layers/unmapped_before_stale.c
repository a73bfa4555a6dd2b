uint64_t A[8];
uint64_t B[4];
int main(void) {
#pragma omp target map(alloc: A[0:4])
{ A[5] = A[0]; }
}
