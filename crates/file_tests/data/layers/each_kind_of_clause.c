uint64_t A[8];
int main(void) {
#pragma omp target enter data map(always, to: A)
#pragma omp target map(tofrom: A[0:4]) nowait depend(inout: A[0:2])
{ }
#pragma omp taskwait depend(in: A[0:2])
#pragma omp target update from(A)
print(1);
}
