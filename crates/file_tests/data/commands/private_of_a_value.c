uint64_t A[8];
int main(void) {
uint64_t t = 5;
#pragma omp target teams distribute parallel for private(t)
for (int i = 0; i < 8; i++) { t = i; A[i] = t; }
print(t);
}
