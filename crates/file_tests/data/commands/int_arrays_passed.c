#include "ompc.h"
#define N 4
int A[N], B[N];
int of(const int *p, int k) { return p[k]; }
void copy(int *to, int from[], int n) {
#pragma omp target teams distribute parallel for map(from: to[0:N]) map(to: from[0:N])
for (int i = 0; i < n; i++) to[i] = from[i];
}
int main(void) {
for (int i = 0; i < N; i++) A[i] = i + 1;
copy(B, A, N);
int x = 0;
x = of(B, 3);
printf("%d\n", x);
}
