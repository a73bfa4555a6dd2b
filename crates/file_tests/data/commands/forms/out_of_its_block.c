int main(void) {
{
uint64_t y = 1;
}
print(y);
}
