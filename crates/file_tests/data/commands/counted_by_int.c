#include "ompc.h"
uint64_t A[8];
int main(void) {
const int n = 8;
for (int i = 0; i < n; i++) A[i] = i - 1;
for (int i = 1; i < n; i++) A[i - 1] = i * 2 + A[i];
for (int i = 0; i < n; i++) A[i] = i * 1000000000;
for (int i = 0; i < 3000000000; i += 1000000000) A[0] += i;
print(A[1]);
}
