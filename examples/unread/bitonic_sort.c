// HeCBench bitonic-sort (from oneAPI samples)
#include <stdint.h>
#include <stdio.h>
#include <stdlib.h>
#include <math.h>

void ParallelBitonicSort(int input[], int n) {
  // n: the exponent used to set the array size. Array size = power(2, n)
  int size = 1 << n;

  #pragma omp target data map(tofrom: input[0:size])
  {
    // step from 0, 1, 2, ...., n-1
    for (int step = 0; step < n; step++) {
      // for each step s, stage goes s, s-1, ..., 0
      for (int stage = step; stage >= 0; stage--) {
        // Num of sequences (each sequence has 2^(stage+1) elements)
        int seq_len = 1 << (stage + 1);
        // Constant used in the kernel: 2^(step-stage)
        int two_power = 1 << (step - stage);

        #pragma omp target teams distribute parallel for thread_limit(256)
        for (int i = 0; i < size; i++) {
          // Assign the bitonic sequence number.
          int seq_num = i / seq_len;

          // Variable used to identified the swapped element.
          int swapped_ele = -1;

          // Because the elements in the first half in the bitonic
          // sequence may swap with elements in the second half,
          // only the first half of elements in each sequence is
          // required (seq_len/2).
          int h_len = seq_len / 2;

          if (i < (seq_len * seq_num) + h_len) swapped_ele = i + h_len;

          // Check whether increasing or decreasing order.
          int odd = seq_num / two_power;

          // Boolean variable used to determine "increasing" or
          // "decreasing" order.
          int increasing = ((odd % 2) == 0);

          // Swap the elements in the bitonic sequence if needed
          if (swapped_ele != -1) {
            if (((input[i] > input[swapped_ele]) && increasing) ||
                ((input[i] < input[swapped_ele]) && !increasing)) {
              int temp = input[i];
              input[i] = input[swapped_ele];
              input[swapped_ele] = temp;
            }
          }
        }
      }  // end stage
    }  // end step
  }
}

int main(int argc, char *argv[]) {
  int n = 10;
  int seed = 17;
  int size = 1 << n;
  int *data_gpu = (int *)malloc(size * sizeof(int));

  uint64_t s = seed;
  for (int i = 0; i < size; i++) {
    s = s * 6364136223846793005ul + 1442695040888963407ul;
    data_gpu[i] = (s >> 33) % 1000;
  }

  ParallelBitonicSort(data_gpu, n);

  int unequal = 0;
  for (int i = 0; i < size - 1; i++)
    if (data_gpu[i] > data_gpu[i + 1]) unequal = 1;
  printf("%d\n", unequal);
  printf("%d\n", data_gpu[500]);
  free(data_gpu);
  return unequal;
}
