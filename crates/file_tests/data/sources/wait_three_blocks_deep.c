int main(void) { { { {
#pragma omp taskwait
} } print(1); } }
