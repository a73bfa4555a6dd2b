int main(void) { {
#pragma omp taskwait
} {
#pragma omp taskwait
} { } }
