/* OpenMP Examples: async_target.1, .2 (host tasks) and .3 (nowait) */
#include <stdio.h>
#include <stdint.h>
#include <stdlib.h>

#define N 4096
#define CHUNKSZ 512

#pragma omp declare target
uint64_t Z[N];
#pragma omp end declare target

#pragma omp declare target
uint64_t F(uint64_t z)
{
   return z * z + 1;
}
#pragma omp end declare target

void init(int n, uint64_t *v1, uint64_t *v2)
{
   int i;
   for (i = 0; i < n; i++) {
      v1[i] = 3 * i + 1;
      v2[i] = i;
   }
}

/* async_target.1 */
void pipedF()
{
   int C, i;
   for (i = 0; i < N; i++)
      Z[i] = i;
   for (C = 0; C < N; C += CHUNKSZ)
   {
      #pragma omp task shared(Z)
      #pragma omp target map(tofrom: Z[C:CHUNKSZ])
      #pragma omp parallel for
      for (i = C; i < C + CHUNKSZ; i++)
         Z[i] = F(Z[i]);
   }
   #pragma omp taskwait
}

/* async_target.2 */
void vec_mult(uint64_t *p, uint64_t *v1, uint64_t *v2, int n)
{
   int i;
   #pragma omp task shared(v1, v2) depend(out: v1[0:n], v2[0:n])
   #pragma omp target map(from: v1[0:n], v2[0:n])
   for (int i = 0; i < n; i++) {
      v1[i] = 2 * i;
      v2[i] = 5 * i + 1;
   }
   #pragma omp task shared(v1, v2, p) depend(in: v1[0:n], v2[0:n])
   #pragma omp target map(to: v1[0:n], v2[0:n]) map(from: p[0:n])
   #pragma omp parallel for
   for (i = 0; i < n; i++)
      p[i] = v1[i] * v2[i];
   #pragma omp taskwait
}

/* async_target.3 */
int main(void)
{
   int i, n = N;
   int chunk = 256;
   uint64_t v1[N], v2[N], vxv[N];
   uint64_t sum = 0;

   init(n, v1, v2);

   #pragma omp parallel
   {
      #pragma omp masked
      #pragma omp target teams distribute parallel for nowait \
                         map(to: v1[0:n/2]) map(to: v2[0:n/2]) map(from: vxv[0:n/2])
      for (i = 0; i < n/2; i++)
         vxv[i] = v1[i] * v2[i];

      #pragma omp for schedule(dynamic, chunk)
      for (i = n/2; i < n; i++)
         vxv[i] = v1[i] * v2[i];
   }
   for (i = 0; i < n; i++)
      sum += vxv[i];
   printf("%lu\n", sum);

   pipedF();
   vec_mult(vxv, v1, v2, n);
   for (i = 0; i < n; i++)
      sum += vxv[i] + Z[i];
   printf("%lu\n", sum);
   return 0;
}
