uint64_t x, y;
int main(void) {
y = x++;
}
