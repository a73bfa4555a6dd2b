uint64_t A[4][2][8];
int main(void) {
#pragma omp target enter data map(to: A)
#pragma omp target
for (int i = 0; i < 4; i++) for (int j = 0; j < 2; j++) for (int k = 0; k < 8; k++) A[i][j][k] = i + j + k;
#pragma omp target update from(A[0:2])
print(A[1][1][7]);
print(A[2][1][3]);
#pragma omp target exit data map(release: A)
}
