uint64_t A[1];
int main(void) {
#pragma omp target enter data map(to: A)
#pragma omp target
{ A[0] = 7; }
print(A[0]);
}
