uint64_t A[4]; uint64_t g; int main(void) { if (1)
{ if (1) { uint64_t x = 1; } else { uint64_t x = 2; } uint64_t x = 3; print(x); } }
