uint64_t A[4];
int main(void) {
#pragma omp target data map(to: A)
{ }
#pragma omp target data map(to: A)
{ { print(1); } } print(2); }
