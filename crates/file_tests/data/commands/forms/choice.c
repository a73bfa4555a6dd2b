uint64_t x;
int main(void) {
if (x ? 1 : 2) { x = 3; }
}
