uint64_t A[4]; uint64_t g; int main(void) { if (1)
{ g = 7; g = read(); } }
