#include "ompc.h" \
uint64_t A[4];
int main(void) { // \
print(A[0]); }
