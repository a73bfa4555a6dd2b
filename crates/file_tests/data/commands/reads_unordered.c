uint64_t A[2];
uint64_t B[2];
int main(void) {
#pragma omp target data map(to: A) map(from: B)
{
#pragma omp target nowait depend(out: A)
{ A[0] = 7; }
#pragma omp target nowait
{ B[0] = A[0]; }
#pragma omp taskwait
}
print(B[0]);
}
