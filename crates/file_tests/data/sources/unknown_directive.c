int main(void) {
#pragma omp simd
}
