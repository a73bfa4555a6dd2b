#include "ompc.h"
#define N 6
uint64_t A[N][N], S[N];
int main(void) {
    int i, j;
    for (i = 0; i < N; i++)
        for (j = 0; j <= i; j++) A[i][j] = i * N + j;
    for (int k = 0; k < N - 1; k++) {
#pragma omp target teams distribute parallel for map(to: A) map(tofrom: S)
        for (i = k + 1; i < N; i++)
            for (int j = k; j < i; j++) S[i] += A[i][j] - A[j][k];
    }
    for (i = 0; i != N; i++) print(S[i]);
    for (i = 1; i != 7; i += 3)
        for (j = N; j < N + 7 - i; ++j) print(i * 100 + j);
}
