#include "ompc.h"
int main(void) { print(x); }
