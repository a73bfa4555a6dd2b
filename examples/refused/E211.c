#include "ompc.h"
int main(void) {
if (1) {
#pragma omp taskwait
}
}
