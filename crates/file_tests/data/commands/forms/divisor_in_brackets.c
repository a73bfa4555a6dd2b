uint64_t x;
int main(void) {
x = 7 % (x + 1);
}
