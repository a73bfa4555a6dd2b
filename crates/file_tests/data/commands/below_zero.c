int main(void) { print(0 - 1); }
