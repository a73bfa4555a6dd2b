uint64_t A[16], B[4];
int main(void) {
    int i, j;
    #pragma omp target teams distribute parallel for map(to: A) map(from: B)
    for (i = 0; i < 4; i++) {
        uint64_t s = 0;
        for (j = 0; j < 4; j++) s += A[4 * i + j];
        B[i] = s;
    }
    print(B[0]);
}
