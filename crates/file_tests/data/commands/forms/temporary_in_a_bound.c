uint64_t A[8];
int main(void) {
for (int i = 0; i < 4; i++) {
int n = 2 * i;
#pragma omp target map(tofrom: A[n:2])
{ A[2 * i] = 1; }
} }
