// c
int main(void) { { } }
