uint64_t A[4];
int main(void) {
print(A);
}
