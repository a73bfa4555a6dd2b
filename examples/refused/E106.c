#include "ompc.h"
uint64_t A[0];
int main(void) { }
