uint64_t A[4]; uint64_t g; int main(void) { if (1)
{ if (g) { g = 1; } else { g = 2; } if (1) { } print(3); } }
