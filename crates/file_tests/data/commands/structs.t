# structs whose members are all uint64_t

# half of the structs are mapped
$ ompc explain half_of_the_structs.c
half_of_the_structs.c:6:44: error: the target reads P[8], which no map item of it has (in the turn i = 4) [E504]
    6 |     { for (int i = 0; i < 8; i++) P[i].y = P[i].x; }
      |                                            ^~~~
half_of_the_structs.c:5:32: note: `map(to: P[0:8])` maps no more than P[0:8] to the device
    5 |     #pragma omp target map(to: P[0:4])
      |                                ^~~~~~
half_of_the_structs.c:5:32: help: widen the section here to P[0:16]
half_of_the_structs.c:5:1: help: this change is accepted
--- half_of_the_structs.c
+++ half_of_the_structs.c
@@ -5 +5 @@
-    #pragma omp target map(to: P[0:4])
+    #pragma omp target map(tofrom: P)
[1]
