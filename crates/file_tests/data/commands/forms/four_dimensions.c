uint64_t A[4][4][4][4];
int main(void) {

}
