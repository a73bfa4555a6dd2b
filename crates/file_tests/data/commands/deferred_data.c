uint64_t A[4];
int main(void) {
uint64_t s = read();
for (uint64_t i = 0; i < 4; i += 1) { A[i] = i + s; }
#pragma omp target enter data map(to: A) nowait depend(out: A)
#pragma omp target map(tofrom: A) nowait depend(inout: A)
for (uint64_t i = 0; i < 4; i += 1) { A[i] = A[i] * 2; }
#pragma omp target exit data map(from: A) nowait depend(inout: A)
#pragma omp taskwait
for (uint64_t i = 0; i < 4; i += 1) { print(A[i]); }
uint64_t t = read();
print(t);
}
