uint64_t A[4]; uint64_t g; int main(void) { if (1)
{ if (1) { if (2) { print(3); } else { print(4); } } } }
