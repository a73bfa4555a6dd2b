uint64_t A[8];
int main(void) {
#pragma omp target data map(tofrom: A)
{
#pragma omp target
for (uint64_t i = 0; i < 8; i += 1) { A[i] = i; }
#pragma omp target update from(A[6:1])
A[0] = A[6];
if (A[0] > 3) { A[0] = 3; }
}
print(A[0]);
}
