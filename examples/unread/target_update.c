/* OpenMP Examples: target_update.1 and target_update.2 */
#include <stdio.h>
#include <stdint.h>
#include <stdlib.h>
#define SIZE 1000

extern void init(uint64_t *, uint64_t *, int);
extern void init_again(uint64_t *, uint64_t *, int);
extern int maybe_init_again(uint64_t *, int);
extern void output(uint64_t *, int);

void init(uint64_t *v1, uint64_t *v2, int N)
{
   int i;
   for (i = 0; i < N; i++) {
      v1[i] = i;
      v2[i] = i + 3;
   }
}

void init_again(uint64_t *v1, uint64_t *v2, int N)
{
   int i;
   for (i = 0; i < N; i++) {
      v1[i] = 2 * i;
      v2[i] = i + 5;
   }
}

int maybe_init_again(uint64_t *v, int N)
{
   int i;
   if (v[0] > 3)
      return 0;
   for (i = 0; i < N; i++)
      v[i] = v[i] + 3;
   return 1;
}

void output(uint64_t *p, int N)
{
   int i;
   uint64_t s = 0;
   for (i = 0; i < N; i++)
      s = s * 31 + p[i];
   printf("%lu\n", s);
}

/* target_update.1 */
void vec_mult(uint64_t *p, uint64_t *v1, uint64_t *v2, int N)
{
   int i;
   init(v1, v2, N);
   #pragma omp target data map(to: v1[:N], v2[:N]) map(from: p[0:N])
   {
      #pragma omp target
      #pragma omp parallel for
      for (i=0; i<N; i++)
         p[i] = v1[i] * v2[i];
      init_again(v1, v2, N);
      #pragma omp target update to(v1[:N], v2[:N])
      #pragma omp target
      #pragma omp parallel for
      for (i=0; i<N; i++)
         p[i] = p[i] + (v1[i] * v2[i]);
   }
   output(p, N);
}

/* target_update.2 */
void vec_mult2(uint64_t *p, uint64_t *v1, uint64_t *v2, int N)
{
   int i;
   init(v1, v2, N);
   #pragma omp target data map(to: v1[:N], v2[:N]) map(from: p[0:N])
   {
      int changed;
      #pragma omp target
      #pragma omp parallel for
      for (i=0; i<N; i++)
         p[i] = v1[i] * v2[i];
      changed = maybe_init_again(v1, N);
      #pragma omp target update if (changed) to(v1[:N])
      changed = maybe_init_again(v2, N);
      #pragma omp target update if (changed) to(v2[:N])
      #pragma omp target
      #pragma omp parallel for
      for (i=0; i<N; i++)
         p[i] = p[i] + (v1[i] * v2[i]);
   }
   output(p, N);
}

int main(void)
{
   uint64_t p[SIZE], v1[SIZE], v2[SIZE];
   vec_mult(p, v1, v2, SIZE);
   vec_mult2(p, v1, v2, SIZE);
   return 0;
}
