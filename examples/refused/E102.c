#include "ompc.h"
int main(void) { print(1) }
