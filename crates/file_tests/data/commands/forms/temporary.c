uint64_t A[8];
int main(void) {
    for (uint64_t i = 0; i < 8; i++) { int x = i; A[x] = x - 5 < 3; }
}
