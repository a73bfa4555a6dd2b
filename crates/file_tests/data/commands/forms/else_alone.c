uint64_t x;
int main(void) {
x = 1; else x = 2;
}
