uint64_t x;
int main(void) {
print(x[0]);
}
