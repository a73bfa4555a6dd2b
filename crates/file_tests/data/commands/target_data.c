uint64_t A[4];
uint64_t n;
int main(void) {
#pragma omp target data map(alloc: A)
{
#pragma omp target
{ A[0] = n; }
#pragma omp target update from(A[0:2])
{ print(A[0]); }
}
}
