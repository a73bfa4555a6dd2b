uint64_t A[8];
uint64_t B[2];
int main(void) {
#pragma omp target nowait depend(out: A[0:2])
{ }
#pragma omp target nowait depend(out: A[2:2])
{ }
#pragma omp taskwait depend(in: A[0:2])
B[0] = 1;
}
