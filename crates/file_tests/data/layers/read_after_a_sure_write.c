uint64_t A[8];
uint64_t B[4];
int main(void) {
A[0] = 1;
A[1] = A[0] + A[2];
}
