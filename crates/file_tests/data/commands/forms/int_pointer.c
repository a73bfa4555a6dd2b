void f(int n) {
int *t = malloc(n * sizeof(int));
t[0] = n;
free(t);
}
int main(void) { f(4); }
