#define N (3 - 4)
int main(void) {

}
