# cells and sections of arrays of two and three dimensions are told by their rows
$ ompc check row_not_copied.c
! E506 item 3 A[19]
[1]
$ ompc explain row_not_copied.c
row_not_copied.c:8:7: error: the host reads A[2][3], whose last value is on device 0: nothing has copied it to the host since [E506]
    8 | print(A[2][3]);
      |       ^~~~~~~
row_not_copied.c:5:57: note: A[2][3] is written here, on device 0 (in the turn i = 2, j = 3)
    5 | for (int i = 0; i < 4; i++) for (int j = 0; j < 8; j++) A[i][j] = i + j;
      |                                                         ^~~~~~~
row_not_copied.c:6:32: note: `from(A[0:2][0:8])` does not have A[2][3]
    6 | #pragma omp target update from(A[0:2])
      |                                ^~~~~~
row_not_copied.c:8:7: help: write `#pragma omp target update from(A[2:2][0:8])` before this
    8 | print(A[2][3]);
      |       ^~~~~~~
row_not_copied.c:7:1: help: this change is accepted
--- row_not_copied.c
+++ row_not_copied.c
@@ -6,0 +7 @@
+#pragma omp target update from(A)
[1]
$ ompc check row_of_three_not_copied.c
! E506 item 3 A[43]
[1]
$ ompc explain row_of_three_not_copied.c
row_of_three_not_copied.c:8:7: error: the host reads A[2][1][3], whose last value is on device 0: nothing has copied it to the host since [E506]
    8 | print(A[2][1][3]);
      |       ^~~~~~~~~~
row_of_three_not_copied.c:5:85: note: A[2][1][3] is written here, on device 0 (in the turn i = 2, j = 1, k = 3)
    5 | for (int i = 0; i < 4; i++) for (int j = 0; j < 2; j++) for (int k = 0; k < 8; k++) A[i][j][k] = i + j + k;
      |                                                                                     ^~~~~~~~~~
row_of_three_not_copied.c:6:32: note: `from(A[0:2][0:2][0:8])` does not have A[2][1][3]
    6 | #pragma omp target update from(A[0:2])
      |                                ^~~~~~
row_of_three_not_copied.c:8:7: help: write `#pragma omp target update from(A[2:2][0:2][0:8])` before this
    8 | print(A[2][1][3]);
      |       ^~~~~~~~~~
row_of_three_not_copied.c:7:1: help: this change is accepted
--- row_of_three_not_copied.c
+++ row_of_three_not_copied.c
@@ -6,0 +7 @@
+#pragma omp target update from(A)
[1]
