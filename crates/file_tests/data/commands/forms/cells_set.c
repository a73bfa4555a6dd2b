uint64_t A[4];
int main(void) {
memset(A, 0, 32);
print(A[0]); }
