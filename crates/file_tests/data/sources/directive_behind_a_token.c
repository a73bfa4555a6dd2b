x #pragma omp target
#pragma omp taskwait
