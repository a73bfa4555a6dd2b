uint64_t A[4];
uint64_t B[2];
int main(void) {
for (uint64_t i = 0; i < 65537; i += 1) {
#pragma omp taskwait
}
}
