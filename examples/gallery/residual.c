#include "ompc.h"
// The largest change of a sweep, which all turns update: `reduction(max: ..)`.
#define N 64
#define MAX(a, b) ((a) > (b) ? (a) : (b))

uint64_t now[N], next[N];

int main(void) {
    now[0] = 1000000;
    next[0] = 1000000;
#pragma omp target data map(tofrom: now) map(to: next)
    for (int t = 0; t < 40; t++) {
        uint64_t change = 0;
#pragma omp target teams distribute parallel for map(tofrom: change) reduction(max: change)
        for (int i = 1; i < N - 1; i++) {
            next[i] = (now[i - 1] + now[i + 1]) / 2;
            uint64_t d = now[i] < next[i] ? next[i] - now[i] : now[i] - next[i];
            change = MAX(change, d);
        }
#pragma omp target teams distribute parallel for
        for (int i = 1; i < N - 1; i++) now[i] = next[i];
        if (t % 8 == 7) printf("%lu\n", change);
    }
    for (int i = 0; i < 4; i++) printf("%lu\n", now[i]);
    return 0;
}
