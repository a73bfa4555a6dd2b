#define N 4
#undef N
int main(void) {

}
