uint64_t A[2];
int main(void) {
#pragma omp target data map(to: A)
{
#pragma omp target exit data map(delete: A)
}
}
