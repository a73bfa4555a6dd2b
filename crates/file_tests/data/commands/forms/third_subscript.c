uint64_t A[4][2][8];
int main(void) {
for (uint64_t k = 0; k < 8; k++) A[1][1][k + 1] = 1;
}
