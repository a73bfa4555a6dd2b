uint64_t x;
int main(void) {
x = 0x10000000000000000;
}
