uint64_t A[4];
int main(void) {
#pragma omp target map(tofrom: A)
{ A[4] = 1; }
#pragma omp target map(tofrom: A)
{ A[5] = 1; }
#pragma omp target map(tofrom: A)
{ A[6] = 1; }
#pragma omp target map(tofrom: A)
{ A[7] = 1; }
#pragma omp target map(tofrom: A)
{ A[8] = 1; }
#pragma omp target map(tofrom: A)
{ A[9] = 1; }
#pragma omp target map(tofrom: A)
{ A[10] = 1; }
#pragma omp target map(tofrom: A)
{ A[11] = 1; }
#pragma omp target map(tofrom: A)
{ A[12] = 1; }
#pragma omp target map(tofrom: A)
{ A[13] = 1; }
#pragma omp target map(tofrom: A)
{ A[14] = 1; }
}
