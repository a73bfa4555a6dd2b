int main(void) {
if (0) { print(1); } else { print(2); }
if (5) { print(1); } else { print(2); }
print(3);
}
