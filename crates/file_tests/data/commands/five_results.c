uint64_t A[2];
uint64_t B[2];
uint64_t C[2];
uint64_t D[2];
uint64_t E[2];
int main(void) {
#pragma omp target map(to: A, B, C, D, E)
{
A[0] = 1;
C[0] = 3;
D[0] = 4;
E[0] = 5;
}
print(A[0] + C[0] + D[0] + E[0]);
}
