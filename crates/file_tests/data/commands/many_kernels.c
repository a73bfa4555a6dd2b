uint64_t A[1];
int main(void) {
for (uint64_t i = 0; i < 32768; i += 1) {
#pragma omp target map(alloc: A) nowait
{ }
#pragma omp taskwait
}
}
