uint64_t A[4];
int main(void) {
#pragma omp target
{
#pragma omp atomic
A[1] = 1;
}
}
