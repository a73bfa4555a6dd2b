uint64_t A[4];
int main(void) {
uint64_t k = 0;
while (k < 3) {
#pragma omp target
{ A[0] += 1; }
k++;
}
print(A[0]);
}
