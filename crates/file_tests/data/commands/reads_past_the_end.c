uint64_t A[2];
int main(void) {
uint64_t x = read(); print(x);
A[1] = read(); print(A[1]); print(A[0]);
x = read(); print(x);
}
