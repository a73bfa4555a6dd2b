uint64_t x;
int main(void) {
x /= 2 + x;
}
