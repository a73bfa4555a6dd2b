uint64_t A[8];
uint64_t B[2];
int main(void) {
#pragma omp target nowait
{ }
#pragma omp target nowait depend(out: A[0:2])
{ }
#pragma omp taskwait
B[0] = 1;
#pragma omp target nowait
{ }
}
