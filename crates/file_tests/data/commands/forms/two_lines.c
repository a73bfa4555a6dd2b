uint64_t A[4];
int main(void) {
#pragma omp target \ 
 map(to: A)
{ }
}
