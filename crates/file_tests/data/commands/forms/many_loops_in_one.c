int main(void) {
#pragma omp target simd collapse( 3 + 2 )
for (uint64_t i = 0; i < 4; i++) { }
}
