uint64_t A[8];
uint64_t B[2];
int main(void) {
#pragma omp target nowait depend(in: B[0:2], A[6:2])
{ }
#pragma omp target nowait depend(in: B[0:1], A[7:1])
{ }
}
