uint64_t A[4]; uint64_t g; int main(void) {
#pragma omp target
{ A[g] = A[1]; } }
