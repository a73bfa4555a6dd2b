uint64_t A[4];
uint64_t s;
int main(void) {
s = read();
#pragma omp target map(from: A)
{ A[s & 3] = 1; }
print(A[2]);
}
