uint64_t A[8];
uint64_t B[4];
int main(void) {
A[0] = 1;
#pragma omp target map(to: A[0:8])
{ A[0] = 2; }
print(A[0]);
}
