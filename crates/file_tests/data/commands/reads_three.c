int main(void) { uint64_t a = read(); uint64_t b = read(); uint64_t c = read(); print(a); print(b); print(c); }
