int a[4], b[4] = {1, -2};
int distance(int x, int y) { int d = x - y; return d; }
int main(void) {
int n = 3, m = 5;
for (int i = 0; i < 4; i++) { a[i] = i * 2; }
n = 1 + ~n;
m -= 1;
print(distance(a[1], n + m));
}
