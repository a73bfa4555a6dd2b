#include <stdint.h>
uint64_t A[4]; uint64_t s; uint64_t B[65536]; uint64_t t;
int main(void) { }
