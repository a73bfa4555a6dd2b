uint64_t A[4][8];
int main(void) {
#pragma omp target enter data map(to: A)
#pragma omp target
for (int i = 0; i < 4; i++) for (int j = 0; j < 8; j++) A[i][j] = i + j;
#pragma omp target update from(A[0:2])
print(A[1][7]);
print(A[2][3]);
#pragma omp target exit data map(release: A)
}
