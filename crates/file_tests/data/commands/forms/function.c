uint64_t f(uint64_t x) {
}
int main(void) {

}
