#define N 4
int main(void) {
N = 5;
}
