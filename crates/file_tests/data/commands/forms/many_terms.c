uint64_t A[65];
int main(void) {
#pragma omp target map(to: A[0:1+1+1+1+1+1+1+1+1])
{ }
}
