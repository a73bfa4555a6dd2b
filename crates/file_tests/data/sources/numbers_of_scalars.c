uint64_t A[4]; uint64_t g; uint64_t B[4];
int main(void) { uint64_t a = read();
#pragma omp target
{ uint64_t t = a; B[0] = t; }
 uint64_t b = 2; { uint64_t c = 3; b = c; } { uint64_t c = 4;
#pragma omp taskwait
 c = 5; } g = b; }
