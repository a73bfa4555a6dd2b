uint64_t A[1];
int main(void) {
uint64_t s = 5;
#pragma omp target map(tofrom: A) nowait
{ A[0] = s; }
s = 9;
#pragma omp taskwait
print(A[0]);
}
