uint64_t A[8];
uint64_t B[4];
uint64_t s;
int main(void) {
A[s % 4] = 1;
}
