uint64_t n = 2 * 8;
int main(void) {

}
