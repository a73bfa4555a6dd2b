#include "ompc.h"
int main(void) {
#pragma omp target
{
#pragma omp taskwait
}
}
