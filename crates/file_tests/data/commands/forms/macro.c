#define N 2 + 4
int main(void) {

}
