/* OpenMP Examples: target_data.3, target_data.4, target_data.6 */
#include <stdio.h>
#include <stdint.h>
#include <stdlib.h>

#define COLS 64
#define THRESHOLD 1000

extern void init(uint64_t *, uint64_t *, int);
extern void init_again(uint64_t *, uint64_t *, int);
extern void output(uint64_t *, int);

void init(uint64_t *v1, uint64_t *v2, int n)
{
   for (int i = 0; i < n; i++)
   {
      v1[i] = i;
      v2[i] = 2 * i + 1;
   }
}

void init_again(uint64_t *v1, uint64_t *v2, int n)
{
   for (int i = 0; i < n; i++)
   {
      v1[i] = i + 7;
      v2[i] = 5 * i;
   }
}

void output(uint64_t *p, int n)
{
   uint64_t s = 0;
   for (int i = 0; i < n; i++)
      s += p[i] * (i + 1);
   printf("%lu\n", s);
}

/* target_data.6 */
void vec_mult(uint64_t *p, uint64_t *v1, uint64_t *v2, int N)
{
   int i;
   init(v1, v2, N);
   #pragma omp target data if(N>THRESHOLD) map(from: p[0:N])
   {
      #pragma omp target if (N>THRESHOLD) map(to: v1[:N], v2[:N])
      #pragma omp parallel for
      for (i=0; i<N; i++)
         p[i] = v1[i] * v2[i];
      init_again(v1, v2, N);
      #pragma omp target if (N>THRESHOLD) map(to: v1[:N], v2[:N])
      #pragma omp parallel for
      for (i=0; i<N; i++)
         p[i] = p[i] + (v1[i] * v2[i]);
   }
   output(p, N);
}

/* target_data.4 */
void vec_mult_inner(uint64_t *p1, uint64_t *v3, uint64_t *v4, int N)
{
   int i;
   #pragma omp target map(to: v3[0:N], v4[:N]) map(from: p1[0:N])
   #pragma omp parallel for
   for (i=0; i<N; i++)
   {
      p1[i] = v3[i] * v4[i];
   }
}

void foo(uint64_t *p0, uint64_t *v1, uint64_t *v2, int N)
{
   init(v1, v2, N);
   #pragma omp target data map(to: v1[0:N], v2[:N]) map(from: p0[0:N])
   {
      vec_mult_inner(p0, v1, v2, N);
   }
   output(p0, N);
}

int main(void)
{
   uint64_t *p = malloc(2000 * sizeof(uint64_t));
   uint64_t *v1 = malloc(2000 * sizeof(uint64_t));
   uint64_t *v2 = malloc(2000 * sizeof(uint64_t));
   vec_mult(p, v1, v2, 2000);
   vec_mult(p, v1, v2, 500);
   foo(p, v1, v2, 2000);
   free(p);
   free(v1);
   free(v2);
   return 0;
}
