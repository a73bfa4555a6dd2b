uint64_t A[4];
int main(void) { {
uint64_t t[2];
A[0] = t[A[1]];
} }
