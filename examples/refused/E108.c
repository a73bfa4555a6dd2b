#include "ompc.h"
uint64_t x;
int main(void) { print(7 % x); }
