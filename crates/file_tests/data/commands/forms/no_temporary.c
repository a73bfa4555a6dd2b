uint64_t A[8]; uint64_t s;
int main(void) {
    for (int i = 0; i < 8; i++) { int x = i + s; A[x % 8] = 1; }
}
