int main(void) {
for (uint64_t i = 0; i < 1048577; i += 1) { print(i); }
}
