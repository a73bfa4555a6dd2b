uint64_t x;
int main(void) {
if (x)
#pragma omp taskwait
}
