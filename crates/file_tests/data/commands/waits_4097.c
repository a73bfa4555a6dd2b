int main(void) {
for (uint64_t i = 0; i < 4097; i += 1) {
#pragma omp taskwait
}
}
