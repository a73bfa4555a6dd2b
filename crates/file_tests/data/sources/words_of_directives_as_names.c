uint64_t present[1];
uint64_t to[2];
int main(void) {
#pragma omp target update to(present, to)
}
