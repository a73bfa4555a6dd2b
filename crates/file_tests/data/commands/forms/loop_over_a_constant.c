enum { M = 2, N = 4 };
int main(void) {
for (uint64_t N = 0; N < M; N++) { }
}
