uint64_t A[4];
int main(void) {
for (uint64_t i = 0; i < 4; i++) {
#pragma omp target map(to: A[i:])
{ }
}
}
