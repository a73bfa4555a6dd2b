uint64_t A[8];
int main(void) {
#pragma omp target map(tofrom: A)
for (size_t i = 0; i < 4; i++) if (i & 1) for (unsigned long j = 0; j < 4; ++j) A[i * 2 + j] += j; else A[i] = 0;
}
