/* OpenMP Examples: array_sections.1-4 (the conforming ones), target_task_depend */
#include <stdio.h>
#include <stdint.h>
#include <stdlib.h>
#define N 1024

void foo(void)
{
   int A[30];
   for (int i = 0; i < 30; i++)
      A[i] = 0;
#pragma omp target data map(A[0:4])
{
   /* Cannot map distinct parts of the same array */
   #pragma omp target map(A[0:4])
   {
      A[2] = 1;
   }
}
   printf("%d\n", A[2]);
}

void foo4(void)
{
   int A[30], *p;
   for (int i = 0; i < 30; i++)
      A[i] = 0;
#pragma omp target data map(A[0:10])
{
   p = &A[0];
   #pragma omp target map(p[3:7])
   {
      A[2] = 0;
      p[8] = 3;
      A[8] = 1;
   }
}
   printf("%d\n", A[8]);
}

/* target_task_depend / task_dep: host task and target task by depend */
uint64_t v1[N], v2[N], res[N];

void init(uint64_t *a, uint64_t *b, int n)
{
   for (int i = 0; i < n; i++) {
      a[i] = i;
      b[i] = 2 * i;
   }
}

void vec_add(int n)
{
   int i;
   #pragma omp task depend(out: v1, v2)
   init(v1, v2, n);

   #pragma omp target nowait depend(in: v1, v2) depend(out: res) map(to: v1, v2) map(from: res)
   for (i = 0; i < n; i++)
      res[i] = v1[i] + v2[i];

   #pragma omp taskwait
}

int main(void)
{
   foo();
   foo4();
   vec_add(N);
   uint64_t s = 0;
   for (int i = 0; i < N; i++)
      s += res[i];
   printf("%lu\n", s);
   return 0;
}
