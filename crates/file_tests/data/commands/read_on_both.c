uint64_t A[1];
uint64_t B[1];
int main(void) {
#pragma omp target enter data map(alloc: A)
#pragma omp target
{ A[0] = 7; }
#pragma omp target map(to: A) map(from: B) device(1)
{ B[0] = A[0]; }
print(B[0]);
}
