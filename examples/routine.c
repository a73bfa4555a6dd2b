#include "ompc.h"
// A routine works on data that its caller has on the device: it says that they are present, and so copies nothing. A caller
// that did not enter them is refused.
uint64_t X[4];
uint64_t Y[4];
int main(void) {
for (uint64_t i = 0; i < 4; i += 1) { X[i] = i + 1; }
#pragma omp target enter data map(to: X, Y)
for (uint64_t step = 0; step < 3; step += 1) {
// The routine: Y becomes 3 X + Y.
#pragma omp target map(present, to: X) map(present, tofrom: Y)
for (uint64_t i = 0; i < 4; i += 1) { Y[i] = 3 * X[i] + Y[i]; }
}
#pragma omp target update from(present: Y)
for (uint64_t i = 0; i < 4; i += 1) { print(Y[i]); }
#pragma omp target exit data map(release: X, Y)
}
