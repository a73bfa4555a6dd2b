#include <stdint.h>
#pragma omp taskwait
