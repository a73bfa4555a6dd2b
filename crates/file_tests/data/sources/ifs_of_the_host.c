uint64_t g;
int main(void) { if (g) { print(1); } else { { g = 2; } } if (1) { }
#pragma omp taskwait
}
