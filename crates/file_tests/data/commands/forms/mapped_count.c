int count = 0;
int main(void) {
#pragma omp target map(tofrom: count)
{ count += 1; }
printf("%d\n", count); }
