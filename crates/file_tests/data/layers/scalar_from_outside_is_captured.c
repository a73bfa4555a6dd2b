uint64_t A[4];
uint64_t B[2];
uint64_t s;
int main(void) {
B[0] = 1;
#pragma omp target
{ uint64_t t = s; A[0] = t; }
}
