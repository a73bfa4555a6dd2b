#define D 2
int main(void) {
#pragma omp target device(D + 2)
{ }
}
