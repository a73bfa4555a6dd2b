const uint64_t N = 4;
uint64_t A[N - 4];
int main(void) {

}
