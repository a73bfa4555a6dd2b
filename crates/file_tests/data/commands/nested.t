# constructs inside a target, and functions that are declared for the devices

$ ompc run nested_lines.c
1
3
5
7
9
11
13
15
$ ompc list nested_lines.c
0 host
1 target unordered to A[0:8] from y[0:8] to x[0:8]
2 target unordered tofrom y[0:8]
3 host
$ ompc explain nested_stale.c
nested_stale.c:15:59: error: the target reads x[0], which is undefined on device 0: it was created there, and nothing was copied to it (in the turn i = 0) [E507]
   15 |     for (uint64_t i = 0; i < N; i++) y[i] = product(A[i], x[i]);
      |                                                           ^~~~
nested_stale.c:12:55: note: `map(alloc: x[0:8])` creates x[0] on device 0 here, and copies nothing to it
   12 | #pragma omp target map(to: A) map(from: y) map(alloc: x)
      |                                                       ^
nested_stale.c:12:55: help: write `to` in place of `alloc` here, which copies x[0] from the host, or write x[0] on the device before it is read
nested_stale.c:12:1: help: this change is accepted
--- nested_stale.c
+++ nested_stale.c
@@ -12 +12 @@
-#pragma omp target map(to: A) map(from: y) map(alloc: x)
+#pragma omp target map(to: A, x) map(from: y)
[1]
$ ompc explain nested_sweep.c
nested_sweep.c:16:1: error: two turns of this loop, which may run in any order, meet on y[1] [E510]
   16 | #pragma omp target map(tofrom: y)
      | ^~~~~~~~~~~~~~~~~~~~~~~~~~~~~~~~~
nested_sweep.c:19:46: note: y[1] is written here (in the turn i = 1)
   19 |         for (uint64_t i = 0; i < N - 1; i++) y[i] = y[i + 1];
      |                                              ^~~~
nested_sweep.c:19:53: note: y[1] is read here (in the turn i = 0)
   19 |         for (uint64_t i = 0; i < N - 1; i++) y[i] = y[i + 1];
      |                                                     ^~~~~~~~
nested_sweep.c:19:46: help: let this write to another array: then other turns read what y has before the loop
   19 |         for (uint64_t i = 0; i < N - 1; i++) y[i] = y[i + 1];
      |                                              ^~~~
nested_sweep.c:16:1: help: without the lines of constructs inside it this `target` has its turns in order
   16 | #pragma omp target map(tofrom: y)
      | ^~~~~~~~~~~~~~~~~~~~~~~~~~~~~~~~~
nested_sweep.c: no change found: steps 1, checks 2
[1]

# the semicolon is what the target does, and the host does the block behind it; the number of a name of loops elsewhere stays
$ ompc explain empty_target.c
empty_target.c:13:11: error: the host reads A[0], whose last value was on the host, and `from(A[0:4])` at line 12 copied over it what device 0 had [E506]
   13 |     print(A[0]);
      |           ^~~~
empty_target.c:12:36: note: `from(A[0:4])` copies A[0] from device 0 to the host here, whatever it is there
   12 |     #pragma omp target update from(A)
      |                                    ^
empty_target.c:11:7: note: A[0] is written here, on the host
   11 |     { A[0] = 1; }
      |       ^~~~
empty_target.c:11:17: help: write `#pragma omp target update to(A[0:1])` after this, which copies it to device 0
   11 |     { A[0] = 1; }
      |                 ^
empty_target.c:12:1: help: this change is accepted
--- empty_target.c
+++ empty_target.c
@@ -12 +12 @@
-    #pragma omp target update from(A)
+    #pragma omp target update to(A)
[1]
# conditions of a target alone
$ ompc run condition_of_a_target.c
15
$ ompc check condition_that_leaves_threads.c
! E202 line 5 column 20
[1]
$ ompc check condition_of_another_part.c
! E202 line 5 column 20
[1]
