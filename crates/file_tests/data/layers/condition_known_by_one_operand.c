uint64_t A[8];
uint64_t B[4];
uint64_t s;
int main(void) {
if (s || 1) { A[0] = 2; }
}
