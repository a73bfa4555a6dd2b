uint64_t A[8];
uint64_t B[4];
int main(void) {
#pragma omp target map(alloc: A[0:8])
{ A[1] = A[3]; }
}
