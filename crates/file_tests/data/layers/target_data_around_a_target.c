uint64_t A[4];
uint64_t B[2];
int main(void) {
#pragma omp target data map(alloc: A[0:4])
{
#pragma omp target
{ A[0] = 5; }
#pragma omp target update from(A[0:2])
A[0] = 1;
}
}
