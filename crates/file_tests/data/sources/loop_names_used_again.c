uint64_t A[4]; uint64_t g; int main(void) {
#pragma omp target
{ for (uint64_t i = 0; i < 2; i += 1) { uint64_t t = i; } for (uint64_t i = 0; i < 3; i += 1) { } uint64_t i = 1; } }
