int main(void) {

}
