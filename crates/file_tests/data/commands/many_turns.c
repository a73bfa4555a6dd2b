int main(void) {
uint64_t x = 5;
for (uint64_t i = 0; i < 1048576; i += 1) { x = x + i; }
print(x);
}
