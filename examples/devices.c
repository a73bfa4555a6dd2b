// A row of 64 cells and its two ends in four blocks, one on each device, with the cells beside its block: in each sweep
// each device takes the sums of neighbours on its own block, and the cells at its ends go to the devices beside it.
#include "ompc.h"
#define DEVICES 4
#define PART 16
uint64_t A[66], B[66];
int main(void) {
    for (int i = 0; i < 66; i++) {
        A[i] = i * i % 17;
    }
    for (int d = 0; d < DEVICES; d++) {
#pragma omp target enter data device(d) map(to: A[PART * d:18]) map(alloc: B[PART * d:18]) nowait
    }
#pragma omp taskwait
    for (int t = 0; t < 3; t++) {
        for (int d = 0; d < DEVICES; d++) {
#pragma omp target teams distribute parallel for device(d) nowait map(to: A[PART * d:18]) map(from: B[PART * d:18])
            for (int i = 1; i <= PART; i++) {
                B[PART * d + i] = A[PART * d + i - 1] + 2 * A[PART * d + i] + A[PART * d + i + 1];
            }
        }
#pragma omp taskwait
        for (int d = 0; d < DEVICES; d++) {
#pragma omp target teams distribute parallel for device(d) nowait map(from: A[PART * d:18]) map(to: B[PART * d:18])
            for (int i = 1; i <= PART; i++) {
                A[PART * d + i] = B[PART * d + i];
            }
        }
#pragma omp taskwait
        for (int d = 0; d < DEVICES; d++) {
#pragma omp target update device(d) from(A[PART * d + 1:PART])
        }
        for (int d = 0; d < DEVICES; d++) {
#pragma omp target update device(d) to(A[PART * d:1])
#pragma omp target update device(d) to(A[PART * d + 17:1])
        }
    }
    for (int d = 0; d < DEVICES; d++) {
#pragma omp target exit data device(d) map(release: A[PART * d:18]) map(release: B[PART * d:18])
    }
    for (int i = 0; i < 66; i += 5) {
        print(A[i]);
    }
}
