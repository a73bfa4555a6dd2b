uint64_t x;
int main(void) {
x <<= x;
}
