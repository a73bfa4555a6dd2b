int main(void) {
{ const uint64_t N = 4; }
}
