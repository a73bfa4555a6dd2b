uint64_t A[2];
int main(void) {
#pragma omp target enter data map(to: A)
#pragma omp target
{ A[0] = 7; }
#pragma omp target update to(A)
print(A[0]);
#pragma omp target exit data map(release: A)
}
