#include <stdbool.h>
uint64_t A[8];
int main(void) {
    int errors = 0;
    bool seen = false;
    #pragma omp target map(tofrom: A)
    for (int i = 0; i < 8; i++) A[i] = 2 * i;
    for (int i = 0; i < 8; i++) {
        if (A[i] != 2 * i) errors++;
        if (A[i] == 6) seen = true;
    }
    print(errors + A[1]);
    print(seen + A[2]);
    print(errors - 1 < 5);
    return errors != 0;
}
