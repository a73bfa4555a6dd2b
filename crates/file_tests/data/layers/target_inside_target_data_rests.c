uint64_t A[8];
uint64_t B[4];
int main(void) {
#pragma omp target data map(tofrom: A[0:4])
{
#pragma omp target map(tofrom: A[0:4])
{ A[0] = 2; }
}
}
