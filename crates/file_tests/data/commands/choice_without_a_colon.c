uint64_t A[8];
int main(void) {
A[0] = A[1] ? 1;
}
