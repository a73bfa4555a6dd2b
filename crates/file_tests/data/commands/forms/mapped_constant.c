#define N 4
int main(void) {
#pragma omp target map(to: N)
{ }
}
