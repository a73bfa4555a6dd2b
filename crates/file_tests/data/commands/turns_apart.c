uint64_t A[4];
int main(void) {
for (uint64_t t = 0; t < 2; t += 1) {
for (uint64_t u = 0; u < 4; u += 1) {
#pragma omp target map(tofrom: A[u:1])
{ A[u] = A[u] + 1; }
}
A[0] = A[3];
}
}
