#include "ompc.h"
uint64_t x;
int main(void) { uint64_t x = 1; }
