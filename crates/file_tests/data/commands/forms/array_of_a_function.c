void f(void) {
int t[300];
#pragma omp target map(tofrom: t)
{ t[0] = 1; }
}
int main(void) { f(); }
