uint64_t A[8];
int main(void) {
int i;
for (i = 0; i < 8; i++) { A[i] = 1; }
print(i);
}
