uint64_t x;
int main(void) {
#pragma omp target map(tofrom: x)
{ }
}
