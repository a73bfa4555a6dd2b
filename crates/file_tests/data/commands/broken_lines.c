#define N 8
#define STEP(i) \
    A[i] = A[i] * 3 \
           + (i)
uint64_t A[N], B[N];
int main(void) {
    for (int i = 0; i < N; i++) A[i] = i;
#pragma omp target teams distribute parallel for \
    map(tofrom: A[0:N]) \
    num_teams(4)
    for (int i = 0; i < N; i++) { STEP(i); }
#pragma omp target data map(to: A[0:N]) \
                        map(alloc: B[0:N])
    {
#pragma omp target \
        map(from: B[0:N])
        for (int i = 0; i < N; i++) { B[i] = A[i]; }
    }
    for (int i = 0; i < N; i++) print(B[i]);
}
