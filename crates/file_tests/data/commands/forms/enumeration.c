enum { ROWS, COLUMNS };
int main(void) {

}
