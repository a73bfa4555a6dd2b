# scalars in clauses: summed up, counted, kept on a device, copied by updates, and what orders tasks
$ ompc run scalar_summed.c
97
8
$ ompc run scalar_counted.c
22
12
$ ompc run scalar_moved.c
12
6
$ ompc list scalar_summed.c
0 host
1 target unordered to a[0:8] tofrom sum[0:1] tofrom all[0:1]
2 host
$ ompc list scalar_moved.c
0 host
1 enter to s[0:1]
2 target nowait tofrom s[0:1] dep-inout s[0:1]
3 target nowait tofrom s[0:1] dep-inout s[0:1]
4 wait
5 update from s[0:1]
6 host
7 update to s[0:1]
8 target from s[0:1]
9 exit from s[0:1]
10 host
# the faults of arrays are those of scalars: a copy that is forgotten, a wait that is missing, turns that meet
$ ompc run scalar_stale.c
! E506 item 2 count[0]
[1]
$ ompc explain scalar_stale.c
scalar_stale.c:8:21: error: the host reads count[0], whose last value is on device 0: nothing has copied it to the host since [E506]
    8 |     printf("%lu\n", count);
      |                     ^~~~~
scalar_stale.c:7:7: note: count[0] is written here, on device 0
    7 |     { count = count + 1; }
      |       ^~~~~
scalar_stale.c:6:28: note: `map(to: count[0:1])` removes count[0] from device 0 here without copying it to the host
    6 | #pragma omp target map(to: count)
      |                            ^~~~~
scalar_stale.c:6:28: help: write `tofrom` in place of `to` here, which copies it to the host
scalar_stale.c:6:1: help: this change is accepted
--- scalar_stale.c
+++ scalar_stale.c
@@ -6 +6 @@
-#pragma omp target map(to: count)
+#pragma omp target map(tofrom: count)
[1]
$ ompc explain scalar_overtaken.c
scalar_overtaken.c:11:5: error: the host at line 11 writes n[0] on the host, and the target at line 9 copies n[0] from the host to device 0, with no order between them [E508]
   11 |     n = 9;
      |     ^
scalar_overtaken.c:9:13: note: the target copies n[0] from the host to device 0 here
    9 | #pragma omp target nowait map(from: A)
      |             ^~~~~~
scalar_overtaken.c:9:1: note: this is deferred by `nowait`: what stands after it does not wait for it
    9 | #pragma omp target nowait map(from: A)
      | ^~~~~~~~~~~~~~~~~~~~~~~~~~~~~~~~~~~~~~
scalar_overtaken.c:11:5: note: no `taskwait` between the two waits for it
   11 |     n = 9;
      |     ^
scalar_overtaken.c:11:5: help: write `#pragma omp taskwait` before this
scalar_overtaken.c:11:1: help: this change is accepted
--- scalar_overtaken.c
+++ scalar_overtaken.c
@@ -10,0 +11 @@
+    #pragma omp taskwait
[1]
$ ompc explain scalar_unordered.c
scalar_unordered.c:7:1: error: two turns of this loop, which may run in any order, meet on sum[0] [E510]
    7 | #pragma omp target teams distribute parallel for map(to: a) map(tofrom: sum)
      | ^~~~~~~~~~~~~~~~~~~~~~~~~~~~~~~~~~~~~~~~~~~~~~~~~~~~~~~~~~~~~~~~~~~~~~~~~~~~
scalar_unordered.c:8:33: note: sum[0] is written here (in the turn i = 0)
    8 |     for (int i = 0; i < 4; i++) sum += a[i];
      |                                 ^~~
scalar_unordered.c:8:33: note: sum[0] is read here (in the turn i = 1)
scalar_unordered.c:8:33: help: with `reduction(+: sum)` behind the words of the loop, turns may update it in any order
scalar_unordered.c:7:1: help: as a `target` alone it has its turns in order
    7 | #pragma omp target teams distribute parallel for map(to: a) map(tofrom: sum)
      | ^~~~~~~~~~~~~~~~~~~~~~~~~~~~~~~~~~~~~~~~~~~~~~~~~~~~~~~~~~~~~~~~~~~~~~~~~~~~
scalar_unordered.c:7:1: help: this change is accepted
--- scalar_unordered.c
+++ scalar_unordered.c
@@ -7 +7 @@
-#pragma omp target teams distribute parallel for map(to: a) map(tofrom: sum)
+#pragma omp target teams distribute parallel for map(to: a) map(tofrom: sum) reduction(+: sum)
[1]
