int main(void) {
print(0 && 1); print(2 && 0); print(2 && 3); print(0 || 0); print(0 || 5); print(7 || 0);
}
