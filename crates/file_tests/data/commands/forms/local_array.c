int main(void) { {
uint64_t A[4][4];
} }
