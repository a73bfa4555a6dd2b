uint64_t w[4];
int scale(int f) { return 3 * f; }
int main(void) {
int n = 5;
n--;
w[n % 4] = scale(w[1] + 1);
print(scale(n));
}
