uint64_t A[4];
uint64_t x;
int main(void) {
#pragma omp target map(to: A[0:x])
{ }
}
