int main(void) {
for (uint64_t i = 0; i < 4; i++) uint64_t x = i;
}
