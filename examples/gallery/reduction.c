#include "ompc.h"
#include <stdlib.h>
// The sum and the largest of many numbers: a cell for each part on the device, and the parts one after another on the host.
#define N 8192
#define PARTS 16

uint64_t x[N];

void reduce(const uint64_t *a, uint64_t *sum, uint64_t *most) {
#pragma omp target teams distribute parallel for map(to: a[0:N]) map(from: sum[0:PARTS], most[0:PARTS])
    for (uint64_t p = 0; p < PARTS; p++) {
        uint64_t s = 0, m = 0;
        for (uint64_t i = 0; i < N / PARTS; i++) {
            uint64_t v = a[N / PARTS * p + i];
            s += v;
            if (v > m) m = v;
        }
        sum[p] = s;
        most[p] = m;
    }
}

int main(void) {
    uint64_t *sum = malloc(PARTS * sizeof *sum);
    uint64_t *most = malloc(PARTS * sizeof *most);
    uint64_t s = 0, m = 0;
    for (uint64_t i = 0; i < N; i++) x[i] = i * i % 1009;
    reduce(x, sum, most);
    for (uint64_t p = 0; p < PARTS; p++) {
        s += sum[p];
        if (most[p] > m) m = most[p];
    }
    printf("%lu\n", s);
    printf("%lu\n", m);
    return 0;
}
