uint64_t A[4];
int main(void) {
A[0] = A[1] += 2;
}
