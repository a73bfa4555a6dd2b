#define MAX(a, b) ((a) > (b) ? (a) : (b))
uint64_t a[8];
int main(void) { uint64_t m = 0, k = 100;
for (int i = 0; i < 8; i++) a[i] = i * 5 % 8 + 10;
#pragma omp target teams distribute parallel for map(to: a) reduction(max: m) reduction(min: k)
for (int i = 0; i < 8; i++) { m = MAX(m, a[i]); if (k > a[i]) k = a[i]; }
printf("%lu\n", m); printf("%lu\n", k);
}
