#include "ompc.h"
uint64_t x;
int main(void) {
#pragma omp target
{ x = 1; }
}
