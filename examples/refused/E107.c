#include "ompc.h"
int main(void) { for (uint64_t i = 0; i < 4; i += 1) { i = 2; } }
