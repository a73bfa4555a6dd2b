#include "ompc.h"
int main(void) {
#pragma omp parallel
{ }
}
