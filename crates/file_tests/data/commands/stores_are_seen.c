uint64_t A[3];
int main(void) {
A[0] = 3; A[1] = 4; A[2] = 5;
#pragma omp target map(tofrom: A)
{ A[0] = A[0] * 2 + 1; A[1] = A[0]; }
print(A[0]); print(A[1]); print(A[2]);
}
