int main(void) {
/* x
}
