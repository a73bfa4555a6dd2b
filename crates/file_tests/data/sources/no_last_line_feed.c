#pragma omp taskwait
#pragma omp taskwait