// a scalar that stays on the device, is copied by updates, and orders tasks
#include <stdint.h>
#include <stdio.h>
int main(void) {
    uint64_t s = 1;
#pragma omp target enter data map(to: s)
#pragma omp target nowait map(tofrom: s) depend(inout: s)
    { s = s * 10; }
#pragma omp target nowait map(tofrom: s) depend(inout: s)
    {
#pragma omp atomic
        s += 2;
    }
#pragma omp taskwait
#pragma omp target update from(s)
    printf("%lu\n", s);
    s = 5;
#pragma omp target update to(s)
#pragma omp target map(from: s)
    { s = s + 1; }
#pragma omp target exit data map(from: s)
    printf("%lu\n", s);
    return 0;
}
