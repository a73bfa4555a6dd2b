#define N(x) #x
int main(void) {

}
