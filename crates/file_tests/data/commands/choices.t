# the conditional operator
$ ompc run choices.c < three.txt
10
3
10
5
12
1
14
1
1
3
$ ompc run choices.c < zero.txt
10
3
10
5
12
1
14
1
3
7
$ ompc explain choice_in_a_head.c
choice_in_a_head.c:3:26: error: `(` cannot stand here [E102]
    3 | for (uint64_t i = 0; i < (A[0] ? 8 : 4); i++) { A[i] = 1; }
      |                          ^
choice_in_a_head.c:3:26: help: a loop counts upwards, `for (uint64_t i = NUM; i < NUM; i += NUM) { .. }`, also with `int i`, with `i <= NUM` and with `i++`, or down, `for (int i = NUM; i >= NUM; i--) { .. }`, also with `i > NUM`, each NUM a constant expression; `int i;` before it, in a block, lets it begin with `i = NUM`
[1]
$ ompc explain choice_without_a_colon.c
choice_without_a_colon.c:3:13: error: `?` begins no token [E101]
    3 | A[0] = A[1] ? 1;
      |             ^
choice_without_a_colon.c:3:13: help: `? :` stands in the value or on the left of an assignment, in an initializer in a block, and in what is printed: elsewhere write `if (c) { x = a; } else { x = b; }`
[1]
# its condition is looked at before the rest
$ ompc explain choice_past_the_end.c
choice_past_the_end.c:3:43: error: the subscript of A is 8, and A has 8 cells (in the turn i = 7) [E301]
    3 | for (uint64_t i = 0; i < 8; i++) { A[i] = A[i + 1] > 2 ? 1 : 2; }
      |                                           ^~~~~~~~
choice_past_the_end.c:1:10: note: A has the cells 0 to 7
    1 | uint64_t A[8];
      |          ^~~~
choice_past_the_end.c:3:43: help: put it under an `if` that the values of the loops decide, or change the bounds of the loop
    3 | for (uint64_t i = 0; i < 8; i++) { A[i] = A[i + 1] > 2 ? 1 : 2; }
      |                                           ^~~~~~~~
[1]
