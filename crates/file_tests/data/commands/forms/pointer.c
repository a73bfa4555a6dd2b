uint64_t *p;
int main(void) {

}
