/* OpenMP Examples: array_shaping/device pointers, target_ptr_map,
   use_device_ptr and is_device_ptr with omp_target_alloc */
#include <stdio.h>
#include <stdint.h>
#include <stdlib.h>
#include <omp.h>
#define N 100

void do_work(uint64_t *dev, int n)
{
   #pragma omp target is_device_ptr(dev)
   #pragma omp teams distribute parallel for
   for (int i = 0; i < n; i++)
      dev[i] = dev[i] * 2;
}

void get_dev_cos(uint64_t *mem, size_t s)
{
   int h, t, i;
   uint64_t *mem_dev_cpy;
   h = omp_get_initial_device();
   t = omp_get_default_device();

   if (omp_get_num_devices() < 1 || t < 0) {
      printf("%d\n", -1);
      exit(1);
   }

   mem_dev_cpy = (uint64_t *)omp_target_alloc(sizeof(uint64_t) * s, t);
   if (mem_dev_cpy == NULL) {
      printf("%d\n", -2);
      exit(1);
   }

   omp_target_memcpy(mem_dev_cpy, mem, sizeof(uint64_t)*s, 0, 0, t, h);

   #pragma omp target is_device_ptr(mem_dev_cpy) device(t)
   #pragma omp teams distribute parallel for
   for (i = 0; i < s; i++) {
      mem_dev_cpy[i] = mem_dev_cpy[i] * mem_dev_cpy[i];
   }

   omp_target_memcpy(mem, mem_dev_cpy, sizeof(uint64_t)*s, 0, 0, h, t);

   omp_target_free(mem_dev_cpy, t);
}

int main(void)
{
   uint64_t *x = malloc(N * sizeof(uint64_t));
   uint64_t sum = 0;
   for (int i = 0; i < N; i++)
      x[i] = i;

   #pragma omp target data map(tofrom: x[0:N])
   {
      #pragma omp target data use_device_ptr(x)
      {
         do_work(x, N);
      }
   }

   get_dev_cos(x, N);

   for (int i = 0; i < N; i++)
      sum += x[i];
   printf("%lu\n", sum);
   free(x);
   return 0;
}
