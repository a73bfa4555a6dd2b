#include "ompc.h"
int main(void) { print(18446744073709551616); }
