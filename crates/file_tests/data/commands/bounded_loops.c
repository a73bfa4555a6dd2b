#define MOST 20
uint64_t A[MOST], B[4];
uint64_t steps(uint64_t x, int most) {
    uint64_t n = 0;
    while (x != 1 && n < most) {
        if (x % 2 == 0) x /= 2;
        else x = 3 * x + 1;
        n++;
    }
    return n;
}
int main(void) {
    uint64_t start = read();
    for (int i = 0; i < MOST; i++) A[i] = steps(start + i, MOST);
#pragma omp target teams distribute parallel for \
    map(to: A) map(from: B)
    for (int k = 0; k < 4; k++) {
        uint64_t sum = 0, i = 0;
        while (i <= 4) { sum += A[k * 5 + i % 5]; i += 1; }
        B[k] = sum;
        if (sum % 2 == 0) continue;
        B[k] = sum + 1;
    }
    for (int i = 0; i < MOST; i++) {
        if (A[i] == MOST) { B[0]++; continue; }
        print(A[i]);
    }
    for (int k = 0; k < 4; k++) print(B[k]);
}
