uint64_t A[8];
int main(void) {
#pragma omp target data map(tofrom: A[0:7])
{
#pragma omp target map(tofrom: A)
for (uint64_t i = 0; i < 8; i += 1) { A[i] = i; }
}
print(A[7]);
}
