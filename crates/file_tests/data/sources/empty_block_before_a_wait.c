int main(void) { { } {
#pragma omp taskwait
} }
