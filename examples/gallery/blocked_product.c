#include "ompc.h"
// A product of matrices by blocks: the blocks of the result in any order, the products of two blocks one after another.
#define N 32
#define B 8

uint64_t a[N * N], b[N * N], c[N * N];

int main(void) {
    for (uint64_t i = 0; i < N * N; i++) {
        a[i] = i % 7;
        b[i] = i % 5;
    }
#pragma omp target teams distribute parallel for collapse(2) map(to: a, b) map(from: c)
    for (uint64_t r = 0; r < N; r += B)
        for (uint64_t s = 0; s < N; s += B) {
            for (uint64_t i = 0; i < B; i++)
                for (uint64_t j = 0; j < B; j++) c[N * (r + i) + s + j] = 0;
            for (uint64_t t = 0; t < N; t += B)
                for (uint64_t i = 0; i < B; i++)
                    for (uint64_t j = 0; j < B; j++)
                        for (uint64_t k = 0; k < B; k++)
                            c[N * (r + i) + s + j] += a[N * (r + i) + t + k] * b[N * (t + k) + s + j];
        }
    uint64_t trace = 0;
    for (uint64_t i = 0; i < N; i++) trace += c[(N + 1) * i];
    printf("%lu\n", trace);
    return 0;
}
