uint64_t A[4];
uint64_t x;
int main(void) {
for (uint64_t i = 0; i < x; i += 1) { A[i] = i; }
}
