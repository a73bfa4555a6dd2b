uint64_t A[4];
uint64_t B[2];
int main(void) {
#pragma omp taskwait depend(inout: A[1:2])
}
