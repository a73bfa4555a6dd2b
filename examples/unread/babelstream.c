// BabelStream, OMPStream.cpp as C (OMP_TARGET_GPU)
#include <stdint.h>
#include <stdio.h>
#include <stdlib.h>

#define startA 1
#define startB 2
#define startC 0
#define startScalar 4

unsigned int num_times = 3;
int array_size = 4096;


uint64_t *a, *b, *c;

void OMPStream_init(int ARRAY_SIZE)
{
  a = (uint64_t *)malloc(sizeof(uint64_t) * ARRAY_SIZE);
  b = (uint64_t *)malloc(sizeof(uint64_t) * ARRAY_SIZE);
  c = (uint64_t *)malloc(sizeof(uint64_t) * ARRAY_SIZE);
  #pragma omp target enter data map(alloc: a[0:ARRAY_SIZE], b[0:ARRAY_SIZE], c[0:ARRAY_SIZE])
  {}
}

void OMPStream_free(void)
{
  #pragma omp target exit data map(release: a[0:array_size], b[0:array_size], c[0:array_size])
  {}
  free(a);
  free(b);
  free(c);
}

void init_arrays(uint64_t initA, uint64_t initB, uint64_t initC)
{
  #pragma omp target teams distribute parallel for simd
  for (int i = 0; i < array_size; i++)
  {
    a[i] = initA;
    b[i] = initB;
    c[i] = initC;
  }
}

void read_arrays(void)
{
  #pragma omp target update from(a[0:array_size], b[0:array_size], c[0:array_size])
  {}
}

void copy(void)
{
  #pragma omp target teams distribute parallel for simd
  for (int i = 0; i < array_size; i++)
  {
    c[i] = a[i];
  }
}

void mul(void)
{
  const uint64_t scalar = startScalar;
  #pragma omp target teams distribute parallel for simd
  for (int i = 0; i < array_size; i++)
  {
    b[i] = scalar * c[i];
  }
}

void add(void)
{
  #pragma omp target teams distribute parallel for simd
  for (int i = 0; i < array_size; i++)
  {
    c[i] = a[i] + b[i];
  }
}

void triad(void)
{
  const uint64_t scalar = startScalar;
  #pragma omp target teams distribute parallel for simd
  for (int i = 0; i < array_size; i++)
  {
    a[i] = b[i] + scalar * c[i];
  }
}

uint64_t dot(void)
{
  uint64_t sum = 0;
  #pragma omp target teams distribute parallel for simd map(tofrom: sum) reduction(+:sum)
  for (int i = 0; i < array_size; i++)
  {
    sum += a[i] * b[i];
  }
  return sum;
}

int check_solution(uint64_t sum)
{
  uint64_t goldA = startA;
  uint64_t goldB = startB;
  uint64_t goldC = startC;
  uint64_t goldSum = 0;
  int failed = 0;
  const uint64_t scalar = startScalar;

  for (unsigned int i = 0; i < num_times; i++)
  {
    goldC = goldA;
    goldB = scalar * goldC;
    goldC = goldA + goldB;
    goldA = goldB + scalar * goldC;
  }
  goldSum = goldA * goldB * array_size;

  for (int i = 0; i < array_size; i++)
  {
    if (a[i] != goldA) failed++;
    if (b[i] != goldB) failed++;
    if (c[i] != goldC) failed++;
  }
  if (sum != goldSum) failed++;
  return failed;
}

int main(int argc, char *argv[])
{
  uint64_t sum = 0;
  OMPStream_init(array_size);
  init_arrays(startA, startB, startC);
  for (unsigned int k = 0; k < num_times; k++)
  {
    copy();
    mul();
    add();
    triad();
    sum = dot();
  }
  read_arrays();
  int failed = check_solution(sum);
  printf("%lu\n", sum);
  printf("%d\n", failed);
  OMPStream_free();
  return failed;
}
