uint64_t A[8];
uint64_t B[2];
int main(void) {
B[0] = 1;
#pragma omp target nowait depend(out: A[4:2], A[0:2])
{ }
#pragma omp target nowait depend(in: A[6:2])
{ }
#pragma omp target nowait depend(in: A[5:2], A[1:2])
{ }
#pragma omp target nowait depend(in: A[0:8])
{ }
}
