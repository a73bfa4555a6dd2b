uint64_t A[4];
uint64_t s;
int main(void) {
s = read();
#pragma omp target enter data map(to: A)
#pragma omp target
for (uint64_t i = 0; i < 4; i += 1) { A[i] = i; }
if (s) { A[1] = 7; }
#pragma omp taskwait
print(A[1]);
}
