uint64_t A[8];
int main(void) {
    uint64_t stop = 0;
    #pragma omp target enter data map(to: A, stop)
    #pragma omp target
    for (int i = 0; i < 8; i++) { if (A[i] == 7) stop = 1; }
    #pragma omp target update from(stop)
    print(stop);
}
