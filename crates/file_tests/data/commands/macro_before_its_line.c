uint64_t A[16];
uint64_t f(void) { return TWICE(4); }
#define TWICE(i) ((i) * 2)
int main(void) {
A[TWICE(3)] = f();
}
