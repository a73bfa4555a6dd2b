uint64_t A[4][2][8], x;
int main(void) {
x = A[1][1] + 1;
}
