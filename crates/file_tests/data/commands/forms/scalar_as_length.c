uint64_t n;
uint64_t A[n];
int main(void) {

}
