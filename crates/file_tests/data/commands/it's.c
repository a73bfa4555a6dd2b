uint64_t A[2];
int main(void) {
#pragma omp target enter data map(to: A)
A[0] = 5;
#pragma omp target exit data map(from: A)
print(A[0]);
}
