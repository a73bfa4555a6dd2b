uint64_t A[8];
uint64_t B[2];
int main(void) {
#pragma omp target nowait depend(out: A[0:1])
{ }
#pragma omp target nowait depend(in: A[0:1]) depend(out: A[1:1])
{ }
#pragma omp target nowait depend(in: A[1:1])
{ }
#pragma omp target nowait depend(out: A[2:1])
{ }
}
