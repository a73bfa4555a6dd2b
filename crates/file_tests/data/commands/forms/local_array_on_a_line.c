uint64_t A[4];
int main(void) { {
uint64_t t[2];
#pragma omp target map(tofrom: t)
{ A[0] = t[1]; }
} }
