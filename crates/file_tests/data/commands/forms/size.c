int main(void) {
unsigned x = 4;
}
