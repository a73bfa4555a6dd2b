#pragma omp declare target
uint64_t A[4];
#pragma omp end declare target
int main(void) { print(A[0]); }
