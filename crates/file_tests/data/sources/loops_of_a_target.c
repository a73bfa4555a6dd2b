uint64_t A[4]; uint64_t g; int main(void) {
#pragma omp target
{
  for (uint64_t i = 0; i < 4; i += 1) {
    for (uint64_t j = 1; j < 9; j += 2) { A[i] = j; }
    A[0] = i;
  }
  for (uint64_t k = 5; k < 6; k += 1) { A[k] = 0; }
} }
