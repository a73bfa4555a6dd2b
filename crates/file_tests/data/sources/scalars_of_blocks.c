uint64_t A[4]; uint64_t g; int main(void) { if (1)
{ { uint64_t x = 1; { print(x); } } uint64_t x = 2; print(x); { } } }
