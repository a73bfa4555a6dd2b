uint64_t A[4];
int main(void) {
#pragma omp target data map(tofrom: A)
{
#pragma omp target
{ A[1] = 3; }
A[0] = 1;
A[3] = 2;
}
print(A[0] + A[3]);
}
