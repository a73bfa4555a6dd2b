int main(void) { for (uint64_t i = 5; i < 9; i += 2) { for (uint64_t j = 0; j < 2; j += 1) { print(j); }
#pragma omp taskwait
for (uint64_t j = 0; j < 3; j += 1) {
#pragma omp taskwait
} } }
