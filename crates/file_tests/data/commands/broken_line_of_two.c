uint64_t A[4];
int main(void) {
#pragma omp target map(to: A[0:4]) \
   mop(from: A)
{ A[0] = 1; }
}
