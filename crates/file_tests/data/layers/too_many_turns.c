uint64_t A[8];
uint64_t B[4];
int main(void) {
    for (uint64_t i = 0; i < 1024; i += 1) {
for (uint64_t k = 0; k < 1024; k += 1) { }
}
}
