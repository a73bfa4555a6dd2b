uint64_t A[4];
int main(void) {
for (uint64_t i = 0; i < 2; i += 1) {
#pragma omp target map(to: A[i * 2:1])
{ }
}
}
