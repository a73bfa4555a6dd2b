uint64_t A[8]; uint64_t present[8];
int main(void) {
#pragma omp target enter data map(present, always, to: A[0:4]) device(1)
 #pragma omp target enter data device(0) map(always, present, alloc: present)
#pragma omp target data map(present, alloc: A) device(3)
{
#pragma omp target device(2) map(present, tofrom: A) nowait
{ A[0] = present[1]; }
}
#pragma omp target update to(present: A) from(present[2:3]) device(1)
}
