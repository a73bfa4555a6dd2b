int main(void) {
printf("%lu", 1);
}
