uint64_t x;
int main(void) {
x = 0b11;
}
