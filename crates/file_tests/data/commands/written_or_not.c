uint64_t A[2];
int main(void) {
uint64_t s = read();
#pragma omp target map(from: A)
{ if (s) { A[0] = 1; A[1] = 2; } }
print(s);
}
