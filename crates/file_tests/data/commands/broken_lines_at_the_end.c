uint64_t A[4];
int main(void) {
for (int i = 0; i < 4; i++) A[i] = i;
#pragma omp target map(to: \
A[0:4])
{ A[1] = 7; }
print(A[1]);
#pragma omp \
taskwait \
}