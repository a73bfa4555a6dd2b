unsigned long x, A[4], B[4];
int main(void) {
print(B);
}
