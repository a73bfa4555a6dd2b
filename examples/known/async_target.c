// OpenMP Examples, async_target: a product of two vectors by chunks, whose copies go on beside the kernels.
#include <stdint.h>
#include <stdio.h>
#define N 1024
#define CHUNK 256

uint64_t v1[N], v2[N], p[N];

int main() {
  for (size_t i = 0; i < N; i++) {
    v1[i] = i;
    v2[i] = 2 * i + 1;
  }
  for (size_t c = 0; c < N; c += CHUNK) {
    #pragma omp target enter data map(to: v1[c:CHUNK], v2[c:CHUNK]) map(alloc: p[c:CHUNK]) nowait depend(out: p[c])
    #pragma omp target map(present, alloc: v1[c:CHUNK], v2[c:CHUNK], p[c:CHUNK]) nowait depend(inout: p[c])
    for (size_t i = 0; i < CHUNK; i++)
      p[c + i] = v1[c + i] * v2[c + i];
    #pragma omp target exit data map(from: p[c:CHUNK]) map(release: v1[c:CHUNK], v2[c:CHUNK]) nowait depend(inout: p[c])
  }
  #pragma omp taskwait
  for (size_t i = 0; i < N; i += 100)
    printf("%lu\n", p[i]);
  return 0;
}
