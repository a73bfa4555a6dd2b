int main(void) {
f(1);
}
