uint64_t A[4];
uint64_t B[2];
int main(void) {
for (uint64_t i = 0; i < 18446744073709551615; i += 1) {
for (uint64_t k = 0; k < 1; k += 1) {
#pragma omp taskwait
}
}
}
