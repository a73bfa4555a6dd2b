uint64_t A[8];
int main(void) {
	/* 漢字 é ‮ */ A[2] = 1; /* xxx */ A[9] = 3; /* yyyyyyyyyyyyyyyyyyyyyyyyyyyyyyyyyyyyyyyyyyyyyyyyyyyyyyyyyyyyyyyyyyyyyyyyyyyyyyyyyyyyyyyyyy */
}
