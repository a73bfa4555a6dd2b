uint64_t A[4];
int main(void) {
for (short i = 0; i < 4; i += 1) { A[i] = i; }
}
