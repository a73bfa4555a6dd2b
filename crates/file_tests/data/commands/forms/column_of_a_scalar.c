uint64_t A[4][8], x;
int main(void) {
A[1][x] = 1;
}
