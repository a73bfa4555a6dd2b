uint64_t A[4];
int main(void) {
int i, n;
for (i = 0; i < 4; i++) { n = A[i]; A[i] = n; }
}
