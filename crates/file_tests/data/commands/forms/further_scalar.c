uint64_t A[4], x;
int main(void) {
x[0]++;
}
