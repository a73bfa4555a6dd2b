uint64_t A[8];
uint64_t B[4];
int main(void) {
A[1] = A[0];
}
