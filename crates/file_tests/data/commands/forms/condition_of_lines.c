#ifdef N
int main(void) {

}
