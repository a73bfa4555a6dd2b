uint64_t A[4];
int main(void) {
for (uint64_t i = 0; i < 5; i += 1) { A[i] = i; }
#pragma omp target map(tofrom: A)
{ A[4] = 1; }
#pragma omp target map(tofrom: A[2:4])
{ A[2] = 1; }
for (uint64_t k = 0; k < 10; k += 1) {
#pragma omp target map(tofrom: A)
{ A[k] = 1; }
}
}
