#define IDX(i, j) ((i) * 4 + (j))
uint64_t A[16];
int main(void) {
for (uint64_t i = 0; i < 4; i++) { A[IDX(i, i + 1)] = 1; }
}
