#include "ompc.h"
// A matrix of sparse rows by a vector: each row has four cells, each with its column. The columns are bounded by `% N`.
#define N 256
#define CELLS 4

const uint64_t rounds = 3;
uint64_t column[CELLS * N], value[CELLS * N], x[N], y[N];

void multiply(const uint64_t *in, uint64_t *out) {
#pragma omp target teams distribute parallel for map(present, to: column, value, in[0:N]) map(present, from: out[0:N])
    for (uint64_t row = 0; row < N; row++) {
        uint64_t sum = 0;
        for (uint64_t c = 0; c < CELLS; c++)
            sum += value[CELLS * row + c] * in[column[CELLS * row + c] % N];
        out[row] = sum;
    }
}

int main(void) {
    for (uint64_t i = 0; i < CELLS * N; i++) {
        column[i] = (37 * i + 11) % N;
        value[i] = i % 3;
    }
    for (uint64_t i = 0; i < N; i++) x[i] = i;
#pragma omp target enter data map(to: column, value, x) map(alloc: y)
    for (uint64_t k = 0; k < rounds; k++) {
        multiply(x, y);
        multiply(y, x);
    }
#pragma omp target exit data map(from: x) map(release: column, value, y)
    for (uint64_t i = 0; i < N; i += 64) printf("%lu\n", x[i]);
    return 0;
}
