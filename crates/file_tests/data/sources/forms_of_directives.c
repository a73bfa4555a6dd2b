uint64_t A[8]; uint64_t B[8]; uint64_t C[8]; uint64_t map[1]; uint64_t to[1]; uint64_t always[1]; uint64_t data[1]; uint64_t present[1];
int main(void) {
for (uint64_t i = 0; i < 1; i += 1) { for (uint64_t j = 0; j < 1; j += 1) { for (uint64_t k = 0; k < 1; k += 1) {
#pragma omp target
{ }
#pragma omp target map(to: A)
{ }
#pragma omp target map(tofrom: A[0:4])
{ }
#pragma omp target map(always, to: A[0:4], B) nowait depend(in: A) depend(out: A[1:2*i+3])
{ }
#pragma omp target data map(alloc: A)
{ }
#pragma omp target enter data map(to: A) map(alloc: B) depend(inout: C) nowait
#pragma omp target exit data map(from: A[i:1]) map(release: B) map(delete: C)
#pragma omp target update to(A) from(B[4*k+1:i+j+k]) depend(in: A) nowait
#pragma omp taskwait
#pragma omp taskwait depend(in: A, A)
#  pragma	omp   target
{ }
#pragma omp target nowait depend(in: A)map(to:B)
{ }
#pragma omp target map(to: A) map(from: B, C[0:1])
{ }
#pragma omp target map(to: map, to, always, data)
{ }
#pragma omp target update to(present) from(to[0:1])
#pragma omp target map(to: A[1+2+3+4+5+6+7+8:1])
{ }
#pragma omp target map(always, to: A[2*i+3:4], B) depend(inout: C) nowait
{ }
} } }
}
