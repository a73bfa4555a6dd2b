# arrays that are pointers in C: a target that uses one names it, or it is there

$ ompc explain pointer_without_map.c
pointer_without_map.c:5:13: error: the target uses `a`, a pointer in C, which it names in no `map` clause, and x[0:8] is not on device 0 [E509]
    5 | #pragma omp target teams distribute parallel for
      |             ^~~~~~
pointer_without_map.c:11:5: note: called from here
   11 |     twice(x, N);
      |     ^~~~~
pointer_without_map.c:6:38: note: `a` is used here: a target maps no pointer by itself
    6 |     for (uint64_t i = 0; i < n; i++) a[i] *= 2;
      |                                      ^~~~
pointer_without_map.c:5:13: help: write `map(tofrom: a[0:8])` on this line, or enter it before
    5 | #pragma omp target teams distribute parallel for
      |             ^~~~~~
pointer_without_map.c:5:1: help: this change is accepted
--- pointer_without_map.c
+++ pointer_without_map.c
@@ -5 +5 @@
-#pragma omp target teams distribute parallel for
+#pragma omp target teams distribute parallel for map(tofrom: a[0:8])
[1]
$ ompc fix pointer_without_map.c
#include "ompc.h"
#include <stdlib.h>
#define N 8
void twice(uint64_t *a, uint64_t n) {
#pragma omp target teams distribute parallel for map(tofrom: a[0:8])
    for (uint64_t i = 0; i < n; i++) a[i] *= 2;
}
int main(void) {
    uint64_t *x = malloc(N * sizeof(uint64_t));
    for (uint64_t i = 0; i < N; i++) x[i] = i;
    twice(x, N);
    printf("%lu\n", x[3]);
    free(x);
    return 0;
}
# an array that main allocates is not known in the functions before it, so the change is made in main
$ ompc explain pointer_read_too_early.c
pointer_read_too_early.c:6:43: error: the host reads cells[0], whose last value is on device 0: nothing has copied it to the host since (in the turn i = 0) [E506]
    6 |     for (uint64_t i = 0; i < n; i++) s += a[i];
      |                                           ^~~~
pointer_read_too_early.c:14:18: note: called from here
   14 |     uint64_t s = sum(cells, N);
      |                  ^~~
pointer_read_too_early.c:13:38: note: cells[0] is written here, on device 0 (in the turn i = 0)
   13 |     for (uint64_t i = 0; i < N; i++) cells[i] = i;
      |                                      ^~~~~~~~
pointer_read_too_early.c:6:43: help: write `#pragma omp target update from(cells[0:4])` before this
    6 |     for (uint64_t i = 0; i < n; i++) s += a[i];
      |                                           ^~~~
pointer_read_too_early.c:14:1: help: this change is accepted
--- pointer_read_too_early.c
+++ pointer_read_too_early.c
@@ -13,0 +14 @@
+    #pragma omp target update from(cells[0:4])
[1]

# global pointers, functions that give a status, the words of main
$ ompc run global_pointers.c
0
$ ompc list global_pointers.c
0 host
1 target unordered to a[0:8] to b[0:64] tofrom c[0:8]
2 host
$ ompc explain global_pointer_not_mapped.c
global_pointer_not_mapped.c:22:15: error: the target uses `b`, a pointer in C, which it names in no `map` clause, and b[0:64] is not on device 0 [E509]
   22 |   #pragma omp target map(to: a[0:C]) map(tofrom: c[0:C]) device(0)
      |               ^~~~~~
global_pointer_not_mapped.c:48:3: note: called from here
   48 |   Mult();
      |   ^~~~
global_pointer_not_mapped.c:27:17: note: `b` is used here: a target maps no pointer by itself
   27 |         c[i] += b[j + i * C] * a[j];
      |                 ^~~~~~~~~~~~
global_pointer_not_mapped.c:22:15: help: write `map(tofrom: b[0:64])` on this line, or enter it before
   22 |   #pragma omp target map(to: a[0:C]) map(tofrom: c[0:C]) device(0)
      |               ^~~~~~
global_pointer_not_mapped.c:22:1: help: this change is accepted
--- global_pointer_not_mapped.c
+++ global_pointer_not_mapped.c
@@ -22 +22 @@
-  #pragma omp target map(to: a[0:C]) map(tofrom: c[0:C]) device(0)
+  #pragma omp target map(to: a[0:C]) map(tofrom: c[0:C], b[0:64]) device(0)
[1]
$ ompc explain global_pointer_given_twice.c
global_pointer_given_twice.c:1:10: error: `*` cannot stand here [E102]
    1 | uint64_t *a;
      |          ^
global_pointer_given_twice.c:1:10: help: there are no pointers: an array is a global, `uint64_t A[4];`, or `uint64_t *A;` that `main` assigns once, `A = malloc(4 * sizeof(uint64_t));`
[1]
# a pointer that stands behind an atomic line
$ ompc explain pointer_behind_an_atomic.c
pointer_behind_an_atomic.c:4:13: error: the target uses `p`, a pointer in C, which it names in no `map` clause, and A[0:8] is not on device 0 [E509]
    4 | #pragma omp target map(tofrom: q[0:8])
      |             ^~~~~~
pointer_behind_an_atomic.c:12:1: note: called from here
   12 | f(A, B);
      | ^
pointer_behind_an_atomic.c:8:1: note: `p` is used here: a target maps no pointer by itself
    8 | p[i] = i;
      | ^~~~
pointer_behind_an_atomic.c:4:13: help: write `map(tofrom: p[0:8])` on this line, or enter it before
    4 | #pragma omp target map(tofrom: q[0:8])
      |             ^~~~~~
pointer_behind_an_atomic.c:4:1: help: this change is accepted
--- pointer_behind_an_atomic.c
+++ pointer_behind_an_atomic.c
@@ -4 +4 @@
-#pragma omp target map(tofrom: q[0:8])
+#pragma omp target map(tofrom: q[0:8], p[0:8])
[1]
