#include "ompc.h"
// The next chunk goes to the device while the host prepares the one behind it, and the kernels wait for theirs alone.
#define CHUNK 256
#define CHUNKS 4

uint64_t in[CHUNKS * CHUNK], out[CHUNKS * CHUNK];

void prepare(uint64_t *a, uint64_t k) {
    for (uint64_t i = 0; i < CHUNK; i++) a[CHUNK * k + i] = 3 * i + k;
}

int main(void) {
#pragma omp target enter data map(alloc: in, out)
    for (uint64_t k = 0; k < CHUNKS; k++) {
        prepare(in, k);
#pragma omp target update to(in[CHUNK * k:CHUNK]) nowait depend(out: in[CHUNK * k:CHUNK])
#pragma omp target teams distribute parallel for nowait depend(in: in[CHUNK * k:CHUNK]) depend(out: out[CHUNK * k:CHUNK])
        for (uint64_t i = 0; i < CHUNK; i++) out[CHUNK * k + i] = in[CHUNK * k + i] * in[CHUNK * k + i];
#pragma omp target update from(out[CHUNK * k:CHUNK]) nowait depend(in: out[CHUNK * k:CHUNK])
    }
#pragma omp taskwait
#pragma omp target exit data map(release: in, out)
    uint64_t sum = 0;
    for (uint64_t i = 0; i < CHUNKS * CHUNK; i++) sum += out[i];
    printf("%lu\n", sum);
    return 0;
}
