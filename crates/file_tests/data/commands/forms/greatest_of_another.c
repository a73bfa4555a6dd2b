uint64_t a[8], b[8];
int main(void) { uint64_t m = 0;
#pragma omp target teams distribute parallel for reduction(max: m)
for (int i = 0; i < 8; i++) if (a[i] > m) m = b[i];
}
