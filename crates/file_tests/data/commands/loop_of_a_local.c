uint64_t A[8];
int main(void) {
uint64_t i = 4;
for (i = 0; i < 8; i++) { A[i] = 1; }
}
