#include "ompc.h"
int main(void) {
#pragma omp target enter data
}
