uint64_t x, y;
int main(void) {
x = &y;
}
