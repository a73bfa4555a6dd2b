/*
#pragma omp */ x
// #pragma omp
