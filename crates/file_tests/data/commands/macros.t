# macros with parameters
$ ompc run macros.c
10
9
9
10
13
$ ompc list macros.c
0 host
1 target unordered 2 to A[0:16] from B[0:16]
2 host
# what is wrong in a macro's text is told where it is used, and what is wrong of a macro where it is defined
$ ompc explain macro_past_the_end.c
macro_past_the_end.c:4:36: error: the subscript of A is 16, and A has 16 cells (in the turn i = 3) [E301]
    4 | for (uint64_t i = 0; i < 4; i++) { A[IDX(i, i + 1)] = 1; }
      |                                    ^~~~~~~~~~~~~~~~
macro_past_the_end.c:2:10: note: A has the cells 0 to 15
    2 | uint64_t A[16];
      |          ^~~~~
macro_past_the_end.c:4:36: help: put it under an `if` that the values of the loops decide, or change the bounds of the loop
    4 | for (uint64_t i = 0; i < 4; i++) { A[IDX(i, i + 1)] = 1; }
      |                                    ^~~~~~~~~~~~~~~~
[1]
$ ompc explain macro_of_two.c
macro_of_two.c:1:2: error: `define` begins no directive that is read [E201]
    1 | #define IDX(i, j) ((i) * 4 + (j))
      |  ^~~~~~
macro_of_two.c:1:2: help: of a macro with parameters the text is one of C's tokens with its brackets closed, and each use has as many arguments: where one macro is not so, none is read
[1]
$ ompc explain macro_of_itself.c
macro_of_itself.c:1:2: error: `define` begins no directive that is read [E201]
    1 | #define NEXT(i) (NEXT(i) + 1)
      |  ^~~~~~
macro_of_itself.c:1:2: help: of a macro with parameters the text is one of C's tokens with its brackets closed, and each use has as many arguments: where one macro is not so, none is read
[1]
$ ompc explain macro_before_its_line.c
macro_before_its_line.c:2:27: error: `TWICE` is not declared here [E103]
    2 | uint64_t f(void) { return TWICE(4); }
      |                           ^~~~~
macro_before_its_line.c:2:27: help: a function is called behind its definition, as a statement, `f(A, 8);`, or, where it gives a value, once in a value that is assigned, `x += f(8) % 4;`, with the name of an array for an array, any value for a `uint64_t`, and a constant or a value that is seen to be small for an `int`
[1]
