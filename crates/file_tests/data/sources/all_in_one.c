// A
uint64_t A[4]; uint64_t g;
int main(void) {
  uint64_t x = read();
#pragma omp target data map(to: A[0:4])
  for (uint64_t k = 0; k < 2; k += 1) { g = A[k] + x; if (g < 3) { print(1 << 2); } else { }
#pragma omp target map(always, from: A) nowait depend(in: A[2*k+1:1])
    { A[0] = ~x; }
  }
}
