#include "ompc.h"
int main(void) {
#pragma omp target
{ print(1); }
}
