#define NEXT(i) (NEXT(i) + 1)
uint64_t A[16];
int main(void) {
A[NEXT(3)] = 1;
}
