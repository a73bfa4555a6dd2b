uint64_t A[4];
int main(void) {
#pragma omp target enter data map(to: A)
#pragma omp target enter data map(to: A)
#pragma omp target enter data map(to: A)
#pragma omp target enter data map(to: A)
for (uint64_t t = 0; t < 9; t += 1) {
#pragma omp target exit data map(release: A)
}
}
