int main(void) {
print(3 == 4); print(4 == 3); print(3 == 3);
print(3 != 4); print(4 != 3); print(3 != 3);
print(3 < 4); print(4 < 3); print(3 < 3);
print(3 <= 4); print(4 <= 3); print(3 <= 3);
print(3 > 4); print(4 > 3); print(3 > 3);
print(3 >= 4); print(4 >= 3); print(3 >= 3);
}
