#define N
int main(void) {

}
