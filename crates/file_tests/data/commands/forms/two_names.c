int main(void) {
uint64_t a, *b;
}
