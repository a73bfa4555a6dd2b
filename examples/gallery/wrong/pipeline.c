#include "ompc.h"
// The sum of a chunk does not wait until the chunk is filtered.
#define CHUNK 64
#define CHUNKS 6

uint64_t raw[CHUNK * CHUNKS], clean[CHUNK * CHUNKS], sums[CHUNKS];

void filter(const uint64_t *in, uint64_t *out, uint64_t k) {
#pragma omp target teams distribute parallel for nowait device(0) map(to: in[CHUNK * k:CHUNK]) map(from: out[CHUNK * k:CHUNK]) depend(out: out[CHUNK * k:CHUNK])
    for (uint64_t i = 0; i < CHUNK; i++) out[CHUNK * k + i] = in[CHUNK * k + i] & ~1ul;
}

void sum_up(const uint64_t *in, uint64_t *s, uint64_t k) {
#pragma omp target nowait device(1) map(to: in[CHUNK * k:CHUNK]) map(from: s[k:1]) depend(out: s[k:1])
    {
        uint64_t sum = 0;
        for (uint64_t i = 0; i < CHUNK; i++) sum += in[CHUNK * k + i];
        s[k] = sum;
    }
}

int main(void) {
    for (uint64_t i = 0; i < CHUNK * CHUNKS; i++) raw[i] = i * 7 % 64;
    for (uint64_t k = 0; k < CHUNKS; k++) {
        filter(raw, clean, k);
        sum_up(clean, sums, k);
    }
#pragma omp taskwait
    for (uint64_t k = 0; k < CHUNKS; k++) printf("%lu\n", sums[k]);
    return 0;
}
