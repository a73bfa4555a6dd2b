uint64_t x;
int main(void) {
if (x) x = 1;
else if (x) x = 2;
else if (x) x = 2;
else if (x) x = 2;
else if (x) x = 2;
else if (x) x = 2;
else if (x) x = 2;
else if (x) x = 2;
else if (x) x = 2;
else if (x) x = 2;
else if (x) x = 2;
else if (x) x = 2;
else if (x) x = 2;
else if (x) x = 2;
else if (x) x = 2;
else if (x) x = 2;
}
