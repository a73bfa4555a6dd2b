uint64_t A[8];
uint64_t B[2];
int main(void) {
#pragma omp target nowait depend(in: A[3:1])
{ }
#pragma omp target nowait depend(out: A[3:1])
{ }
}
