uint64_t A[1];
int main(void) {
#pragma omp target
{ }
#pragma omp target
 { if (A[0]) { A[0] = 1; } { } }
}
