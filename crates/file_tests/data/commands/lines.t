# lines that begin with `#` and go on behind a backslash

# directives and a macro
$ ompc explain broken_lines.c
broken_lines.c:19:39: error: the host reads B[0], whose last value is on device 0: nothing has copied it to the host since (in the turn i = 0) [E506]
   19 |     for (int i = 0; i < N; i++) print(B[i]);
      |                                       ^~~~
broken_lines.c:17:39: note: B[0] is written here, on device 0 (in the turn i = 0)
   17 |         for (int i = 0; i < N; i++) { B[i] = A[i]; }
      |                                       ^~~~
broken_lines.c:13:36: note: `map(alloc: B[0:8])` removes B[0] from device 0 at the end of its block without copying it to the host
   13 |                         map(alloc: B[0:N])
      |                                    ^~~~~~
broken_lines.c:13:36: help: write `from` in place of `alloc` here, which copies it to the host
broken_lines.c:13:1: help: this change is accepted
--- broken_lines.c
+++ broken_lines.c
@@ -13 +13 @@
-                        map(alloc: B[0:N])
+                        map(from: B[0:N])
[1]
$ ompc fix broken_lines.c
#define N 8
#define STEP(i) \
    A[i] = A[i] * 3 \
           + (i)
uint64_t A[N], B[N];
int main(void) {
    for (int i = 0; i < N; i++) A[i] = i;
#pragma omp target teams distribute parallel for \
    map(tofrom: A[0:N]) \
    num_teams(4)
    for (int i = 0; i < N; i++) { STEP(i); }
#pragma omp target data map(to: A[0:N]) \
                        map(from: B[0:N])
    {
#pragma omp target \
        map(from: B[0:N])
        for (int i = 0; i < N; i++) { B[i] = A[i]; }
    }
    for (int i = 0; i < N; i++) print(B[i]);
}

# a carriage return stands behind the backslash
$ ompc check broken_line_of_two.c
! E202 line 3 column 41
[1]
$ ompc explain broken_line_of_two.c
broken_line_of_two.c:4:4: error: `mop` is no clause that this directive takes [E202]
    4 |    mop(from: A)
      |    ^~~
broken_line_of_two.c:4:4: help: take the clause away
[1]

# behind an include and a remark nothing goes on
$ ompc run backslash_in_a_remark.c
0

# a directive that is cut off at the end of the text, and one that goes on into a brace
$ ompc explain broken_lines_at_the_end.c
broken_lines_at_the_end.c:10:1: error: `}` is no clause that this directive takes [E202]
   10 | }
      | ^
broken_lines_at_the_end.c:10:1: help: take the clause away
[1]
