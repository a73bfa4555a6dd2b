int main(void) { print(1); { print(2);
#pragma omp taskwait
 print(3); { } } print(4); print(5); }
