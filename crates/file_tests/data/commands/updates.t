# updates that commute: in any order of turns the same, and without the word for it two turns meet
$ ompc run sums_in_any_order.c
10
3
6
$ ompc step sums_in_any_order.c --fine --turns 3,1,2,0,2,1
10
3
6
open 0
step 0
step 0
step 0
step 0
close 0
open 1
step 1
step 1
step 1
step 1
step 1
step 1
step 1
step 1
step 1
step 1
step 1
step 1
step 1
step 1
step 1
step 1
step 1
step 1
step 1
step 1
step 1
step 1
step 1
step 1
step 1
step 1
step 1
step 1
step 1
step 1
step 1
step 1
step 1
step 1
step 1
close 1
open 2
step 2
step 2
step 2
close 2
end
$ ompc witness sums_in_any_order.c
! accepted: no schedule differs
[3]
$ ompc explain bits_without_atomic.c
bits_without_atomic.c:6:1: error: two turns of this loop, which may run in any order, meet on bits[0] [E510]
    6 | #pragma omp target teams distribute parallel for map(to: A) map(tofrom: s, bits) reduction(+: s)
      | ^~~~~~~~~~~~~~~~~~~~~~~~~~~~~~~~~~~~~~~~~~~~~~~~~~~~~~~~~~~~~~~~~~~~~~~~~~~~~~~~~~~~~~~~~~~~~~~~
bits_without_atomic.c:9:9: note: bits[0] is written here (in the turn i = 0)
    9 |         bits[i & 1] |= A[i];
      |         ^~~~~~~~~~~
bits_without_atomic.c:9:9: note: bits[0] is read here (in the turn i = 2)
bits_without_atomic.c:9:9: help: with `#pragma omp atomic` before each update of it, turns may update it in any order
bits_without_atomic.c:6:1: help: as a `target` alone it has its turns in order
    6 | #pragma omp target teams distribute parallel for map(to: A) map(tofrom: s, bits) reduction(+: s)
      | ^~~~~~~~~~~~~~~~~~~~~~~~~~~~~~~~~~~~~~~~~~~~~~~~~~~~~~~~~~~~~~~~~~~~~~~~~~~~~~~~~~~~~~~~~~~~~~~~
bits_without_atomic.c:9:1: help: this change is accepted
--- bits_without_atomic.c
+++ bits_without_atomic.c
@@ -8,0 +9 @@
+        #pragma omp atomic
[1]
$ ompc fix bits_without_atomic.c
#include "ompc.h"
// A sum and the bits of two cells, the bits without a word that turns may update them so.
uint64_t A[4] = {1, 2, 3, 4};
uint64_t s[1], bits[2];
int main(void) {
#pragma omp target teams distribute parallel for map(to: A) map(tofrom: s, bits) reduction(+: s)
    for (uint64_t i = 0; i < 4; i++) {
        s[0] += A[i];
        #pragma omp atomic
        bits[i & 1] |= A[i];
    }
    print(s[0]);
    print(bits[0]);
    print(bits[1]);
    return 0;
}
$ ompc witness bits_without_atomic.c
choices
turns 3,3,3
output 10
output 3
output 4
erased output 10
erased output 3
erased output 6
first difference line 3: 4, erased 6
ompc step --fine bits_without_atomic.c --turns 3,3,3
