struct point { uint64_t x, y; };
struct point P[8];
int main() {
    for (int i = 0; i < 8; i++) { P[i].x = i; P[i].y = 1; }
    #pragma omp target map(to: P[0:4])
    { for (int i = 0; i < 8; i++) P[i].y = P[i].x; }
    printf("%lu\n", P[3].y);
}
