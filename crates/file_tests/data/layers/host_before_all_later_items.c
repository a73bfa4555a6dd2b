uint64_t A[8];
uint64_t B[2];
int main(void) {
#pragma omp target nowait
{ }
B[0] = 1;
#pragma omp target nowait
{ }
#pragma omp target
{ }
#pragma omp target nowait
{ }
}
