uint64_t A[8];
uint64_t B[2];
int main(void) {}
