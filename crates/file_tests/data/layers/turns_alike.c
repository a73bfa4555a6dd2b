uint64_t A[8];
uint64_t B[4];
uint64_t s;
int main(void) {
for (uint64_t k = 0; k < 2; k += 1) {
A[2] = A[0];
A[0] = k;
if (s) { A[1] = k; }
A[3] = A[1];
}
}
