int main(void) { { } }
