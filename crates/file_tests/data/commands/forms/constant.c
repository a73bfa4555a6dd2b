uint64_t n;
const uint64_t N = n;
int main(void) {

}
