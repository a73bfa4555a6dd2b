uint64_t A[8];
int main(void) {
  for (uint64_t i = 1; i < 4; i += 1) {
#pragma omp target map(tofrom: A[2 * i - 2:4 - i])
    { A[2 * i - 2] = i; }
  }
  print(A[4]);
}
