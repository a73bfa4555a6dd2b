#define IDX(i, j) ((i) * 4 + (j))
uint64_t A[16];
int main(void) {
A[IDX(3)] = 1;
}
