uint64_t A[4];
int main(void) {
for (uint64_t t = 0; t < 5; t += 1) {
#pragma omp target enter data map(to: A)
}
#pragma omp target exit data map(release: A)
#pragma omp target exit data map(release: A)
#pragma omp target exit data map(release: A)
#pragma omp target exit data map(release: A)
#pragma omp target update to(present: A)
#pragma omp target exit data map(release: A)
#pragma omp target update to(present: A)
}
