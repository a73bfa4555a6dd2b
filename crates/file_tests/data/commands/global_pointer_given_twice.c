uint64_t *a;
int main(void) {
a = malloc(8 * sizeof(uint64_t));
a[0] = 1;
free(a);
a = malloc(8 * sizeof(uint64_t));
}
