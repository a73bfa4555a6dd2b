# which form is read where a text has another that people write, and which limit it passes

# loops
$ ompc explain forms/counts_down.c
forms/counts_down.c:3:30: error: `--` cannot stand here [E102]
    3 | for (uint64_t i = 0; i < 8; i--) { A[i & 3] = i; }
      |                              ^~
forms/counts_down.c:3:30: help: a loop counts upwards, `for (uint64_t i = NUM; i < NUM; i += NUM) { .. }`, also with `int i`, with `i <= NUM` and with `i++`, or down, `for (int i = NUM; i >= NUM; i--) { .. }`, also with `i > NUM`, each NUM a constant expression; `int i;` before it, in a block, lets it begin with `i = NUM`
[1]
$ ompc explain forms/limit_of_all.c
forms/limit_of_all.c:3:27: error: `18446744073709551615` is no limit that can stand behind `<=` [E108]
    3 | for (uint64_t i = 0; i <= 18446744073709551615; i++) { A[i & 3] = i; }
      |                           ^~~~~~~~~~~~~~~~~~~~
forms/limit_of_all.c:3:27: help: a limit is at most 18446744073709551614 there, and one more behind `<`
[1]
$ ompc explain forms/no_number.c
forms/no_number.c:3:28: error: `-` gives no number from 0 to 18446744073709551615 here [E108]
    3 | for (uint64_t i = 0; i < 3 - 4; i++) { A[i & 3] = i; }
      |                            ^
forms/no_number.c:3:28: help: write the constant expression so that each of its operators gives such a number
[1]
$ ompc explain forms/no_step.c
forms/no_step.c:3:34: error: `1` begins no step that can stand here [E108]
    3 | for (uint64_t i = 0; i < 4; i += 1 - 1) { A[i] = i; }
      |                                  ^
forms/no_step.c:3:34: help: a step is at least 1, and with `i < NUM` that limit plus the step at most 18446744073709551616
[1]
$ ompc explain forms/scalar_limit.c
forms/scalar_limit.c:4:26: error: `x` cannot stand here [E102]
    4 | for (uint64_t i = 0; i < x; i += 1) { A[i] = i; }
      |                          ^
forms/scalar_limit.c:4:26: help: a loop counts upwards, `for (uint64_t i = NUM; i < NUM; i += NUM) { .. }`, also with `int i`, with `i <= NUM` and with `i++`, or down, `for (int i = NUM; i >= NUM; i--) { .. }`, also with `i > NUM`, each NUM a constant expression; `int i;` before it, in a block, lets it begin with `i = NUM`
[1]
$ ompc explain forms/loop_of_short.c
forms/loop_of_short.c:3:6: error: `short` cannot stand here [E102]
    3 | for (short i = 0; i < 4; i += 1) { A[i] = i; }
      |      ^~~~~
forms/loop_of_short.c:3:6: help: a loop counts upwards, `for (uint64_t i = NUM; i < NUM; i += NUM) { .. }`, also with `int i`, with `i <= NUM` and with `i++`, or down, `for (int i = NUM; i >= NUM; i--) { .. }`, also with `i > NUM`, each NUM a constant expression; `int i;` before it, in a block, lets it begin with `i = NUM`
[1]
$ ompc explain forms/while_loop.c
forms/while_loop.c:2:1: error: `while` is not declared here [E103]
    2 | while (1) { }
      | ^~~~~
forms/while_loop.c:2:1: help: `while (c) { .. }` is read where a name in `c` is bounded, `k < NUM` alone or with `&&`, and one statement of the block makes it larger, `k++;` or `k += NUM;`, which nothing else in it changes; or write `for (uint64_t i = 0; i < NUM; i += 1) { if (c) { .. } }`
[1]
$ ompc explain forms/declaration_as_body.c
forms/declaration_as_body.c:2:34: error: `uint64_t` cannot stand here [E102]
    2 | for (uint64_t i = 0; i < 4; i++) uint64_t x = i;
      |                                  ^~~~~~~~
forms/declaration_as_body.c:2:34: help: a body is a statement: one that is a declaration, a directive or nothing has braces, `{ .. }`
[1]

# conditions
$ ompc explain forms/directive_as_body.c
forms/directive_as_body.c:4:1: error: this line cannot stand here [E102]
    4 | #pragma omp taskwait
      | ^~~~~~~~~~~~~~~~~~~~
forms/directive_as_body.c:4:1: help: a body is a statement: one that is a declaration, a directive or nothing has braces, `{ .. }`
[1]
$ ompc explain forms/else_alone.c
forms/else_alone.c:3:8: error: `else` cannot stand here [E102]
    3 | x = 1; else x = 2;
      |        ^~~~
forms/else_alone.c:3:8: help: an `else` stands right behind the body of an `if`
[1]
$ ompc explain forms/choice.c
forms/choice.c:3:7: error: `?` begins no token [E101]
    3 | if (x ? 1 : 2) { x = 3; }
      |       ^
forms/choice.c:3:7: help: `? :` stands in the value or on the left of an assignment, in an initializer in a block, and in what is printed: elsewhere write `if (c) { x = a; } else { x = b; }`
[1]

# assignments
$ ompc explain forms/value_of_increment.c
forms/value_of_increment.c:3:6: error: `++` cannot stand here [E102]
    3 | y = x++;
      |      ^~
forms/value_of_increment.c:3:6: help: an assignment, `x = e;`, `x += e;` or `x++;`, is a statement by itself, and has no value
[1]
$ ompc explain forms/value_of_change.c
forms/value_of_change.c:3:13: error: `+=` cannot stand here [E102]
    3 | A[0] = A[1] += 2;
      |             ^~
forms/value_of_change.c:3:13: help: an assignment, `x = e;`, `x += e;` or `x++;`, is a statement by itself, and has no value
[1]
$ ompc explain forms/shift_to.c
forms/shift_to.c:3:7: error: `x` is no shift count: behind `<<=` and `>>=` all of the right side is a constant expression, from 0 to 63 [E108]
    3 | x <<= x;
      |       ^
forms/shift_to.c:3:7: help: write a constant, or a scalar with a value that nothing changes, `int n = 8;`; to shift by another scalar, count in a loop
[1]
$ ompc explain forms/divide_to.c
forms/divide_to.c:3:6: error: `2` begins no divisor: behind `/=` and `%=` all of the right side is a constant expression, from 1 on [E108]
    3 | x /= 2 + x;
      |      ^
forms/divide_to.c:3:6: help: write a constant, or a scalar with a value that nothing changes, `int n = 8;`; to divide by another scalar, count in a loop
[1]
$ ompc explain forms/negative.c
forms/negative.c:3:5: error: `-` cannot stand here [E102]
    3 | x = -1;
      |     ^
forms/negative.c:3:5: help: there is no minus with one operand: write `0 - e`
[1]
$ ompc explain forms/read_in_a_sum.c
forms/read_in_a_sum.c:3:12: error: `+` cannot stand here [E102]
    3 | x = read() + 1;
      |            ^
forms/read_in_a_sum.c:3:12: help: `read()` is all of a right side: `x = read();`
[1]
$ ompc explain forms/add_what_is_read.c
forms/add_what_is_read.c:3:6: error: `read` cannot stand here [E102]
    3 | x += read();
      |      ^~~~
forms/add_what_is_read.c:3:6: help: `read()` is all of a right side: `x = read();`
[1]
$ ompc explain forms/no_semicolon.c
forms/no_semicolon.c:4:1: error: `}` cannot stand here [E102]
    4 | }
      | ^
forms/no_semicolon.c:4:1: help: an operator or a `;` is missing before it
[1]
$ ompc explain forms/divisor.c
forms/divisor.c:3:9: error: `x` is no divisor: that is a constant, or an expression of constants in brackets, from 1 on [E108]
    3 | x = 7 / x;
      |         ^
forms/divisor.c:3:9: help: write a constant, or a scalar with a value that nothing changes, `int n = 8;`; to divide by another scalar, count in a loop
[1]
$ ompc explain forms/divisor_in_brackets.c
forms/divisor_in_brackets.c:3:9: error: `(` begins no divisor: that is a constant, or an expression of constants in brackets, from 1 on [E108]
    3 | x = 7 % (x + 1);
      |         ^
forms/divisor_in_brackets.c:3:9: help: write a constant, or a scalar with a value that nothing changes, `int n = 8;`; to divide by another scalar, count in a loop
[1]
$ ompc explain forms/shift_count.c
forms/shift_count.c:3:10: error: `x` is no shift count: that is a constant, or an expression of constants in brackets, from 0 to 63 [E108]
    3 | x = 1 << x;
      |          ^
forms/shift_count.c:3:10: help: write a constant, or a scalar with a value that nothing changes, `int n = 8;`; to shift by another scalar, count in a loop
[1]

# declarations
$ ompc explain forms/initializer.c
forms/initializer.c:1:12: error: `=` cannot stand here [E102]
    1 | uint64_t n = 2 * 8;
      |            ^
forms/initializer.c:1:12: help: a global begins as 0, or as numbers or constants, `uint64_t n = 8;` or `uint64_t A[4] = {1, 2};`, no more than it has cells; anything else is assigned in `main`
[1]
$ ompc explain forms/int_list.c
forms/int_list.c:3:1: error: `int` cannot stand here [E102]
    3 | int i, n;
      | ^~~
forms/int_list.c:4:31: note: an `int` is read where each value is seen to be from 0 to 2147483647, and this one is not
    4 | for (i = 0; i < 4; i++) { n = A[i]; A[i] = n; }
      |                               ^~~~
forms/int_list.c:3:1: help: the one type is `uint64_t`, also written `size_t`, `unsigned long` or `unsigned long long`, without other words before it; `int` is read where each value that an `int` gets anywhere in the source is seen to be from 0 to 2^31 - 1: made of such numbers, of cells and names that are an `int` and of comparisons, without `-`, `~` and numbers of 64 bits
    3 | int i, n;
      | ^~~
[1]
$ ompc explain forms/int_values.c
forms/int_values.c:1:5: error: `a` cannot stand here [E102]
    1 | int a[4], b[4] = {1, -2};
      |     ^~~~
forms/int_values.c:1:22: note: an `int` is read where each value is seen to be from 0 to 2147483647, and this one is not
    1 | int a[4], b[4] = {1, -2};
      |                      ^
forms/int_values.c:2:38: note: an `int` is read where each value is seen to be from 0 to 2147483647, and this one is not
    2 | int distance(int x, int y) { int d = x - y; return d; }
      |                                      ^
forms/int_values.c:2:52: note: an `int` is read where each value is seen to be from 0 to 2147483647, and this one is not
    2 | int distance(int x, int y) { int d = x - y; return d; }
      |                                                    ^
forms/int_values.c:1:5: help: the one type is `uint64_t`, also written `size_t`, `unsigned long` or `unsigned long long`, without other words before it; `int` is read where each value that an `int` gets anywhere in the source is seen to be from 0 to 2^31 - 1: made of such numbers, of cells and names that are an `int` and of comparisons, without `-`, `~` and numbers of 64 bits
    1 | int a[4], b[4] = {1, -2};
      |     ^~~~
[1]
$ ompc explain forms/int_steps.c
forms/int_steps.c:4:1: error: `int` cannot stand here [E102]
    4 | int n = 5;
      | ^~~
forms/int_steps.c:5:2: note: an `int` is read where each value is seen to be from 0 to 2147483647, and this one is not
    5 | n--;
      |  ^~
forms/int_steps.c:4:1: help: the one type is `uint64_t`, also written `size_t`, `unsigned long` or `unsigned long long`, without other words before it; `int` is read where each value that an `int` gets anywhere in the source is seen to be from 0 to 2^31 - 1: made of such numbers, of cells and names that are an `int` and of comparisons, without `-`, `~` and numbers of 64 bits
    4 | int n = 5;
      | ^~~
[1]
$ ompc explain forms/two_names.c
forms/two_names.c:2:11: error: `,` cannot stand here [E102]
    2 | uint64_t a, *b;
      |           ^
forms/two_names.c:2:11: help: a declaration in a block is of scalars, with values or without: `uint64_t a = 0, b;`
[1]
$ ompc explain forms/local_array.c
forms/local_array.c:2:11: error: `[` cannot stand here [E102]
    2 | uint64_t A[4][4];
      |           ^
forms/local_array.c:2:11: help: an array of a block has one dimension and a constant number of cells, at most 256, and no directive names it: declare it before `main`, or in `main` outside of its blocks, and pass it to the function that uses it
[1]
$ ompc explain forms/local_subscript.c
forms/local_subscript.c:4:8: error: `t` is an array of a block: it ends with that, and its subscripts are numbers below its length [E103]
    4 | A[0] = t[A[1]];
      |        ^~~~~~~
forms/local_subscript.c:4:8: help: write numbers as its subscripts, or names of loops around that have numbers for bounds and at most 64 turns; or declare it before `main`
[1]
$ ompc explain forms/local_array_on_a_line.c
forms/local_array_on_a_line.c:4:32: error: `t` is an array of a block, which no directive names [E103]
    4 | #pragma omp target map(tofrom: t)
      |                                ^
forms/local_array_on_a_line.c:4:32: help: declare it before `main`, or in `main` outside of its blocks, and pass it to the function that uses it; one that a `target` alone uses is declared in its block
[1]
$ ompc explain forms/array_of_a_function.c
forms/array_of_a_function.c:2:6: error: `[` cannot stand here [E102]
    2 | int t[300];
      |      ^
forms/array_of_a_function.c:2:6: help: an array of a block has one dimension and a constant number of cells, at most 256, and no directive names it: declare it before `main`, or in `main` outside of its blocks, and pass it to the function that uses it
[1]
$ ompc explain forms/int_pointer.c
forms/int_pointer.c:2:5: error: `*` cannot stand here [E102]
    2 | int *t = malloc(n * sizeof(int));
      |     ^
forms/int_pointer.c:2:5: help: an array is a global, `uint64_t A[4];`, or `main` allocates it, outside of its blocks, with a number of cells that is a product of constants: `uint64_t *A = malloc(4 * sizeof(uint64_t));`
[1]
$ ompc explain forms/declared_data.c
forms/declared_data.c:1:1: error: this line cannot stand here [E102]
    1 | #pragma omp declare target
      | ^~~~~~~~~~~~~~~~~~~~~~~~~~
forms/declared_data.c:1:1: help: `declare target` is read around functions alone: take it away, and enter the global where `main` begins, `#pragma omp target enter data map(to: A)`
[1]
$ ompc explain forms/cells_set.c
forms/cells_set.c:3:1: error: `memset` is not declared here [E103]
    3 | memset(A, 0, 32);
      | ^~~~~~
forms/cells_set.c:3:1: help: cells are set one by one: `for (uint64_t i = 0; i < 4; i += 1) { A[i] = 0; }`
[1]
$ ompc explain forms/temporary_in_a_bound.c
forms/temporary_in_a_bound.c:5:34: error: `n` is no constant and no name of a loop around, and stands in a bound [E103]
    5 | #pragma omp target map(tofrom: A[n:2])
      |                                  ^
forms/temporary_in_a_bound.c:5:34: help: a bound is a constant expression, or terms with `+` and `-` between them: constants, names of loops around, and products `NUM * NAME` of both
[1]
$ ompc explain forms/mapped_count.c
forms/mapped_count.c:3:32: error: `count` is a scalar, where the name of an array has to stand [E103]
    3 | #pragma omp target map(tofrom: count)
      |                                ^~~~~
forms/mapped_count.c:3:32: help: declare it in `main`, as a `uint64_t`, or hold it in an array of one cell, `uint64_t s[1];`
[1]
$ ompc explain forms/four_dimensions.c
forms/four_dimensions.c:1:20: error: `[` cannot stand here [E102]
    1 | uint64_t A[4][4][4][4];
      |                    ^
forms/four_dimensions.c:1:20: help: an array is `uint64_t A[NUM];`, `uint64_t A[NUM][NUM];` or `uint64_t A[NUM][NUM][NUM];`, each NUM a constant expression
[1]
$ ompc explain forms/scalar_as_length.c
forms/scalar_as_length.c:2:12: error: `n` cannot stand here [E102]
    2 | uint64_t A[n];
      |            ^
forms/scalar_as_length.c:2:12: help: an array is `uint64_t A[NUM];`, `uint64_t A[NUM][NUM];` or `uint64_t A[NUM][NUM][NUM];`, each NUM a constant expression
[1]
$ ompc explain forms/no_cell.c
forms/no_cell.c:2:12: error: `N` begins no length of an array, which has from 1 to 65536 cells [E106]
    2 | uint64_t A[N - 4];
      |            ^
forms/no_cell.c:2:12: help: write a constant expression from 1 to 65536
[1]
$ ompc explain forms/pointer.c
forms/pointer.c:1:10: error: `*` cannot stand here [E102]
    1 | uint64_t *p;
      |          ^
forms/pointer.c:1:10: help: there are no pointers: an array is a global, `uint64_t A[4];`, or `uint64_t *A;` that `main` assigns once, `A = malloc(4 * sizeof(uint64_t));`
[1]
$ ompc explain forms/address.c
forms/address.c:3:5: error: `&` cannot stand here [E102]
    3 | x = &y;
      |     ^
forms/address.c:3:5: help: there are no pointers: an array is a global, `uint64_t A[4];`, or `uint64_t *A;` that `main` assigns once, `A = malloc(4 * sizeof(uint64_t));`
[1]
$ ompc explain forms/constant.c
forms/constant.c:2:1: error: `const` cannot stand here [E102]
    2 | const uint64_t N = n;
      | ^~~~~
forms/constant.c:2:1: help: a constant is `const uint64_t N = NUM;`, before `main` or in no block within it, or `#define N NUM`: it has a name of its own, and NUM is a constant expression, with `#define` in brackets
[1]
$ ompc explain forms/constant_in_a_block.c
forms/constant_in_a_block.c:2:3: error: `const` is not declared here [E103]
    2 | { const uint64_t N = 4; }
      |   ^~~~~
forms/constant_in_a_block.c:2:3: help: a constant is `const uint64_t N = NUM;`, before `main` or in no block within it, or `#define N NUM`: it has a name of its own, and NUM is a constant expression, with `#define` in brackets
[1]
$ ompc explain forms/assigned_constant.c
forms/assigned_constant.c:3:1: error: `N` cannot stand here [E102]
    3 | N = 5;
      | ^
forms/assigned_constant.c:3:1: help: a constant stands for its number: it is not assigned, and its name is not declared again
[1]
$ ompc explain forms/loop_over_a_constant.c
forms/loop_over_a_constant.c:3:15: error: `N` cannot stand here [E102]
    3 | for (uint64_t N = 0; N < M; N++) { }
      |               ^
forms/loop_over_a_constant.c:3:15: help: a constant stands for its number: it is not assigned, and its name is not declared again
[1]
$ ompc explain forms/enumeration.c
forms/enumeration.c:1:1: error: `enum` cannot stand here [E102]
    1 | enum { ROWS, COLUMNS };
      | ^~~~
forms/enumeration.c:1:1: help: an enumeration is `enum { A = NUM, B = NUM };` before `main`: each of its names has a value, a constant expression
[1]
$ ompc explain forms/size.c
forms/size.c:2:1: error: `unsigned` is not declared here [E103]
    2 | unsigned x = 4;
      | ^~~~~~~~
forms/size.c:2:1: help: the one type is `uint64_t`, also written `size_t`, `unsigned long` or `unsigned long long`, without other words before it; `int` is read where each value that an `int` gets anywhere in the source is seen to be from 0 to 2^31 - 1: made of such numbers, of cells and names that are an `int` and of comparisons, without `-`, `~` and numbers of 64 bits
[1]

# numbers and texts
$ ompc explain forms/binary.c
forms/binary.c:3:6: error: `b11` begins no token [E101]
    3 | x = 0b11;
      |      ^~~
forms/binary.c:3:6: help: a number is decimal or hexadecimal, 255 or 0xff, with a suffix of C or none: 8ul
[1]
$ ompc explain forms/octal.c
forms/octal.c:3:5: error: `08` begins with a superfluous 0 [E105]
    3 | x = 08;
      |     ^~
forms/octal.c:3:5: help: take the 0 away: a number is decimal, or hexadecimal behind `0x`
[1]
$ ompc explain forms/large_hexadecimal.c
forms/large_hexadecimal.c:3:5: error: `0x10000000000000000` is above 18446744073709551615 [E105]
    3 | x = 0x10000000000000000;
      |     ^~~~~~~~~~~~~~~~~~~
forms/large_hexadecimal.c:3:5: help: write a smaller number
[1]
$ ompc explain forms/fraction.c
forms/fraction.c:3:6: error: `.` begins no token [E101]
    3 | x = 0.5;
      |      ^
forms/fraction.c:3:6: help: there are whole numbers alone, and no members
[1]
$ ompc explain forms/formatted.c
forms/formatted.c:2:1: error: `printf` is not declared here [E103]
    2 | printf("%lu", 1);
      | ^~~~~~
forms/formatted.c:2:1: help: a number and a line feed are printed by `print(e);` or `printf("%lu\n", e);`
[1]
$ ompc explain forms/text.c
forms/text.c:2:7: error: `"` begins no token [E101]
    2 | print("a");
      |       ^
forms/text.c:2:7: help: there are no texts: `print(e);` writes a number
[1]
$ ompc explain forms/open_comment.c
forms/open_comment.c:2:1: error: `/` begins a comment that has no end [E101]
    2 | /* x
      | ^
forms/open_comment.c:2:1: help: end the comment by `*/`
[1]

# `main` and functions
$ ompc explain forms/status.c
forms/status.c:2:1: error: `return` is not declared here [E103]
    2 | return 1;
      | ^~~~~~
forms/status.c:2:1: help: take it away: `main` ends at its last brace, before which `return e;` of names, numbers and comparisons may stand
[1]
$ ompc explain forms/parameters.c
forms/parameters.c:1:10: error: `int` cannot stand here [E102]
    1 | int main(int argc) {
      |          ^~~
forms/parameters.c:1:10: help: `main` is `int main(void) { .. }` or `int main() { .. }`
[1]
$ ompc explain forms/function.c
forms/function.c:1:11: error: `(` cannot stand here [E102]
    1 | uint64_t f(uint64_t x) {
      |           ^
forms/function.c:1:11: help: a function stands before `main`, `void f(uint64_t *a, uint64_t n) { .. }` or `uint64_t f(uint64_t n) { .. return e; }` with its one `return` as its last statement, and is called as a statement, `f(A, 8);`, or once in a value that is assigned, `x += f(8) % 4;`, with the name of an array for an array, any value for a `uint64_t`, and a constant or a value that is seen to be small for an `int`
[1]
$ ompc explain forms/call.c
forms/call.c:2:1: error: `f` is not declared here [E103]
    2 | f(1);
      | ^
forms/call.c:2:1: help: a function is called behind its definition, as a statement, `f(A, 8);`, or, where it gives a value, once in a value that is assigned, `x += f(8) % 4;`, with the name of an array for an array, any value for a `uint64_t`, and a constant or a value that is seen to be small for an `int`
[1]
$ ompc explain forms/nothing.c
forms/nothing.c:1:1: error: the end of the text cannot stand here [E102]
forms/nothing.c:1:1: help: a program is its globals, and then `int main(void) { .. }`
[1]

# lines that begin with `#`
$ ompc explain forms/macro.c
forms/macro.c:1:2: error: `define` begins no directive that is read [E201]
    1 | #define N 2 + 4
      |  ^~~~~~
forms/macro.c:1:2: help: a constant is defined once, as a number, a constant or an expression of them in brackets: `#define N 8`, `#define M (N + 4)`
[1]
$ ompc explain forms/macro_with_parameters.c
forms/macro_with_parameters.c:1:2: error: `define` begins no directive that is read [E201]
    1 | #define N(x) #x
      |  ^~~~~~
forms/macro_with_parameters.c:1:2: help: of a macro with parameters the text is one of C's tokens with its brackets closed, and each use has as many arguments: where one macro is not so, none is read
[1]
$ ompc explain forms/no_value.c
forms/no_value.c:1:2: error: `define` begins no directive that is read [E201]
    1 | #define N
      |  ^~~~~~
forms/no_value.c:1:2: help: a constant has a value, `#define N 8`: take the line away, or write one
[1]
$ ompc explain forms/below_zero.c
forms/below_zero.c:1:14: error: `-` gives no number from 0 to 18446744073709551615 here [E108]
    1 | #define N (3 - 4)
      |              ^
forms/below_zero.c:1:14: help: write the constant expression so that each of its operators gives such a number
[1]
$ ompc explain forms/undefined.c
forms/undefined.c:2:2: error: `undef` begins no directive that is read [E201]
    2 | #undef N
      |  ^~~~~
forms/undefined.c:2:2: help: a constant holds up to the end of the text: take another name for the next one
[1]
$ ompc explain forms/condition_of_lines.c
forms/condition_of_lines.c:1:2: error: `ifdef` begins no directive that is read [E201]
    1 | #ifdef N
      |  ^~~~~
forms/condition_of_lines.c:1:2: help: of the lines that begin with `#` those of `include`, `define` and `pragma omp` are read
[1]
$ ompc explain forms/host_parallel.c
forms/host_parallel.c:2:13: error: `parallel` begins no directive that is read [E201]
    2 | #pragma omp parallel for
      |             ^~~~~~~~
forms/host_parallel.c:2:13: help: a loop of the host is written without a directive: take the line away
[1]
$ ompc explain forms/distribute_alone.c
forms/distribute_alone.c:3:20: error: `distribute` is no clause that this directive takes [E202]
    3 | #pragma omp target distribute parallel for
      |                    ^~~~~~~~~~
forms/distribute_alone.c:3:20: help: a construct is `target` with `parallel for`, `simd`, `parallel loop`, `teams loop` or `teams distribute` behind it
[1]
$ ompc explain forms/five_loops.c
forms/five_loops.c:2:34: error: `5` is no number of loops that `collapse` takes: these are 1, 2, 3 and 4 [E108]
    2 | #pragma omp target simd collapse(5)
      |                                  ^
forms/five_loops.c:2:34: help: write one of these numbers
[1]
$ ompc explain forms/many_loops_in_one.c
forms/many_loops_in_one.c:2:35: error: `3` begins no number of loops that `collapse` takes: these are 1, 2, 3 and 4 [E108]
    2 | #pragma omp target simd collapse( 3 + 2 )
      |                                   ^
forms/many_loops_in_one.c:2:35: help: write one of these numbers
[1]
$ ompc explain forms/no_teams.c
forms/no_teams.c:2:47: error: `0` is no number from 1 on [E108]
    2 | #pragma omp target teams distribute num_teams(0)
      |                                               ^
forms/no_teams.c:2:47: help: write a constant expression from 1 on
[1]
$ ompc explain forms/no_device.c
forms/no_device.c:3:27: error: `D` begins no device: these are 0, 1, 2 and 3 [E212]
    3 | #pragma omp target device(D + 2)
      |                           ^
forms/no_device.c:3:27: help: write a constant expression from 0 to 3
[1]
$ ompc explain forms/comma.c
forms/comma.c:3:19: error: `,` is no clause that this directive takes [E202]
    3 | #pragma omp target, nowait
      |                   ^
forms/comma.c:3:19: help: a comma stands between two clauses alone: take it away
[1]
$ ompc explain forms/two_lines.c
forms/two_lines.c:3:20: error: `\` begins no token [E101]
    3 | #pragma omp target \ 
      |                    ^
forms/two_lines.c:3:20: help: a line that begins with `#` goes on where nothing but a line feed stands behind the backslash
[1]
$ ompc explain forms/block_on_the_line.c
forms/block_on_the_line.c:3:20: error: `{` is no clause that this directive takes [E202]
    3 | #pragma omp target { A[0] = 1; }
      |                    ^
forms/block_on_the_line.c:3:20: help: the block of a directive stands on the lines behind it
[1]
$ ompc explain forms/no_section.c
forms/no_section.c:2:26: error: the end of the line stands where a clause is missing [E203]
    2 | #pragma omp target update
      |                          ^
forms/no_section.c:2:26: help: write the `map` clause that the directive needs, of an update `to` or `from`
[1]
$ ompc explain forms/waits_twice.c
forms/waits_twice.c:2:27: error: `nowait` stands here a second time [E203]
    2 | #pragma omp target nowait nowait
      |                           ^~~~~~
forms/waits_twice.c:2:27: help: take it away
[1]

# sections
$ ompc explain forms/mapped_scalar.c
forms/mapped_scalar.c:3:32: error: `x` is a scalar, where the name of an array has to stand [E103]
    3 | #pragma omp target map(tofrom: x)
      |                                ^
forms/mapped_scalar.c:3:32: help: declare it in `main`, as a `uint64_t`, or hold it in an array of one cell, `uint64_t s[1];`
[1]
$ ompc explain forms/mapped_constant.c
forms/mapped_constant.c:3:28: error: `N` cannot stand here [E102]
    3 | #pragma omp target map(to: N)
      |                            ^
forms/mapped_constant.c:3:28: help: the name of an array stands here: constants and scalars are not mapped
[1]
$ ompc explain forms/one_cell.c
forms/one_cell.c:3:35: error: `]` does not fit into a section, which is NAME[FIRST:LENGTH] [E205]
    3 | #pragma omp target map(tofrom: A[1])
      |                                   ^
forms/one_cell.c:3:35: help: one cell is the section `A[FIRST:1]`: `A[FIRST]` is read in `depend`, `to` and `from`
[1]
$ ompc explain forms/stride.c
forms/stride.c:3:33: error: `:` does not fit into a section, which is NAME[FIRST:LENGTH] [E205]
    3 | #pragma omp target map(to: A[0:4:2])
      |                                 ^
forms/stride.c:3:33: help: a section has no stride: write `A[FIRST:LENGTH]`
[1]
$ ompc explain forms/no_length.c
forms/no_length.c:4:32: error: `]` does not fit into a section, which is NAME[FIRST:LENGTH] [E205]
    4 | #pragma omp target map(to: A[i:])
      |                                ^
forms/no_length.c:4:32: help: write the length too, `A[FIRST:LENGTH]`: it is left out behind one number alone, that of a cell of the array
[1]
$ ompc explain forms/scalar_length.c
forms/scalar_length.c:4:32: error: `x` does not fit into a section, which is NAME[FIRST:LENGTH] [E205]
    4 | #pragma omp target map(to: A[0:x])
      |                                ^
forms/scalar_length.c:4:32: help: a bound is a constant expression, or terms with `+` and `-` between them: constants, names of loops around, and products `NUM * NAME` of both
[1]
$ ompc explain forms/signed_bound.c
forms/signed_bound.c:4:30: error: `-` does not fit into a section, which is NAME[FIRST:LENGTH] [E205]
    4 | #pragma omp target map(to: A[-i:1])
      |                              ^
forms/signed_bound.c:4:30: help: a term stands here: the first one of a bound has no sign, and none has two
[1]
$ ompc explain forms/brackets_in_a_bound.c
forms/brackets_in_a_bound.c:4:34: error: `(` does not fit into a section, which is NAME[FIRST:LENGTH] [E205]
    4 | #pragma omp target map(to: A[3 - (i + 1):1])
      |                                  ^
forms/brackets_in_a_bound.c:4:34: help: a bound has brackets round constants alone: write its terms without them, as `8 - i - 1` for `8 - (i + 1)`
[1]
$ ompc explain forms/number_behind_a_name.c
forms/number_behind_a_name.c:4:32: error: `*` does not fit into a section, which is NAME[FIRST:LENGTH] [E205]
    4 | #pragma omp target map(to: A[i * 2:1])
      |                                ^
forms/number_behind_a_name.c:4:32: help: a term has one name, behind its number: write `8 * i` for `i * 8`
[1]
$ ompc explain forms/array_in_a_bound.c
forms/array_in_a_bound.c:3:30: error: `A` is an array, and stands in a bound [E103]
    3 | #pragma omp target map(to: A[A:1])
      |                              ^
forms/array_in_a_bound.c:3:30: help: a bound is a constant expression, or terms with `+` and `-` between them: constants, names of loops around, and products `NUM * NAME` of both
[1]

# names that are declared
$ ompc explain forms/whole_array.c
forms/whole_array.c:3:7: error: `A` is an array, and has no subscript here [E103]
    3 | print(A);
      |       ^
forms/whole_array.c:3:7: help: write the cell, `A[e]`: an array by itself has no value
[1]
$ ompc explain forms/further_array.c
forms/further_array.c:3:7: error: `B` is an array, and has no subscript here [E103]
    3 | print(B);
      |       ^
forms/further_array.c:3:7: help: write the cell, `A[e]`: an array by itself has no value
[1]
$ ompc explain forms/scalar_with_subscript.c
forms/scalar_with_subscript.c:3:7: error: `x` is a scalar, and has a subscript here [E103]
    3 | print(x[0]);
      |       ^~~~
forms/scalar_with_subscript.c:3:7: help: declare it as an array, `uint64_t A[NUM];`
[1]
$ ompc explain forms/further_scalar.c
forms/further_scalar.c:3:1: error: `x` is a scalar, and has a subscript here [E103]
    3 | x[0]++;
      | ^~~~
forms/further_scalar.c:3:1: help: declare it as an array, `uint64_t A[NUM];`
[1]
$ ompc explain forms/out_of_its_block.c
forms/out_of_its_block.c:5:7: error: `y` is not declared here [E103]
    5 | print(y);
      |       ^
forms/out_of_its_block.c:5:7: help: declare it before, or take it away
[1]

# limits
$ ompc explain forms/long_name.c
forms/long_name.c:1:10: error: `aaaaaaaaaaaaaaaaaaaaaaaaaaaaaaaaaaaaaaaaaaaaaaaaaaaaaaaaaaaaaaaaa` is too long: a name has at most 64 bytes [E110]
    1 | uint64_t aaaaaaaaaaaaaaaaaaaaaaaaaaaaaaaaaaaaaaaaaaaaaaaaaaaaaaaaaaaaaaaaa;
      |          ^~~~~~~~~~~~~~~~~~~~~~~~~~~~~~~~~~~~~~~~~~~~~~~~~~~~~~~~~~~~~~~~~
forms/long_name.c:1:10: help: take a shorter name
[1]
$ ompc explain forms/many_arrays.c
forms/many_arrays.c:65:10: error: `A64` is one array too many: a program has at most 64 [E110]
   65 | uint64_t A64[1];
      |          ^~~~~~
forms/many_arrays.c:65:10: help: put two arrays into one
[1]
$ ompc check forms/many_loops.c
accepted
$ ompc explain forms/many_conditions.c
forms/many_conditions.c:18:13: error: `x` begins one block too many: 16 may be open at once, a body without braces is one [E109]
   18 | else if (x) x = 2;
      |             ^
forms/many_conditions.c:18:13: help: write the conditions or loops one behind the other
[1]
$ ompc explain forms/many_brackets.c
forms/many_brackets.c:3:21: error: `(` opens one bracket too many: 16 of a kind may be open at once [E109]
    3 | x = (((((((((((((((((1)))))))))))))))));
      |                     ^
forms/many_brackets.c:3:21: help: hold a part in a local
[1]
$ ompc explain forms/many_scalars.c
forms/many_scalars.c:1:1434: error: `x256` is one scalar too many: a program has at most 256 [E110]
    1 | .. x239, x240, x241, x242, x243, x244, x245, x246, x247, x248, x249, x250, x251, x252, x253, x254, x255, x256;
      |                                                                                                          ^~~~
forms/many_scalars.c:1:1434: help: use a local for more than one thing, or an array
[1]
$ ompc explain forms/many_statements.c
forms/many_statements.c:16387:1: error: `x` is one statement too many: a program has at most 16384, directives counted [E110]
16387 | x = 1;
      | ^
forms/many_statements.c:16387:1: help: write a loop, or split the program
[1]
$ ompc explain forms/many_tokens.c
forms/many_tokens.c:3:517: error: `1` is one token too many: an expression has at most 256 [E110]
    3 | ..+ 1 + 1 + 1 + 1 + 1 + 1 + 1 + 1 + 1 + 1 + 1 + 1 + 1 + 1 + 1 + 1 + 1 + 1 + 1 + 1 + 1 + 1 + 1 + 1 + 1 + 1 + 1 ..
      |                                                         ^
forms/many_tokens.c:3:517: help: hold a part in a local
[1]
$ ompc explain forms/many_depends.c
forms/many_depends.c:3:608: error: `A` is one item too many: a directive has at most 64 depend items [E110]
    3 | .. A[53:1], A[54:1], A[55:1], A[56:1], A[57:1], A[58:1], A[59:1], A[60:1], A[61:1], A[62:1], A[63:1], A[64:1])
      |                                                                                                       ^~~~~~~
forms/many_depends.c:3:608: help: name a section that has several of them
[1]
$ ompc explain forms/many_terms.c
forms/many_terms.c:3:48: error: `1` is one term too many: a bound has at most 8 [E110]
    3 | #pragma omp target map(to: A[0:1+1+1+1+1+1+1+1+1])
      |                                                ^
forms/many_terms.c:3:48: help: add the numbers up
[1]
# arrays of two and three dimensions
$ ompc explain forms/row_by_itself.c
forms/row_by_itself.c:3:5: error: `A` has more subscripts in its declaration, or one here that may leave its dimension [E103]
    3 | x = A[1] + 1;
      |     ^~~~
forms/row_by_itself.c:3:5: help: an array of several dimensions has all subscripts, `A[i][j]`, each but the first one surely within its dimension: numbers, names of loops, sums and products of these
[1]
$ ompc explain forms/column_of_a_scalar.c
forms/column_of_a_scalar.c:3:5: error: `[` cannot stand here [E102]
    3 | A[1][x] = 1;
      |     ^
forms/column_of_a_scalar.c:3:5: help: a second or third subscript is surely within its dimension: a sum or a difference of numbers, names of loops and products of these
[1]
$ ompc explain forms/two_of_three_subscripts.c
forms/two_of_three_subscripts.c:3:5: error: `A` has more subscripts in its declaration, or one here that may leave its dimension [E103]
    3 | x = A[1][1] + 1;
      |     ^~~~~~~
forms/two_of_three_subscripts.c:3:5: help: an array of several dimensions has all subscripts, `A[i][j]`, each but the first one surely within its dimension: numbers, names of loops, sums and products of these
[1]
$ ompc explain forms/third_subscript.c
forms/third_subscript.c:3:41: error: `[` cannot stand here [E102]
    3 | for (uint64_t k = 0; k < 8; k++) A[1][1][k + 1] = 1;
      |                                         ^
forms/third_subscript.c:3:41: help: a second or third subscript is surely within its dimension: a sum or a difference of numbers, names of loops and products of these
[1]
# updates in any order
$ ompc explain forms/atomic_store.c
forms/atomic_store.c:5:19: error: the end of the line is no clause that this directive takes [E202]
    5 | #pragma omp atomic
      |                   ^
forms/atomic_store.c:5:19: help: behind `atomic` or `atomic update` stands a statement that changes one cell: `A[e] op= x;`, `A[e]++;` or `A[e] = A[e] op x;`
[1]
$ ompc explain forms/sum_that_is_read.c
forms/sum_that_is_read.c:3:50: error: `reduction` is no clause that this directive takes [E202]
    3 | #pragma omp target teams distribute parallel for reduction(+: s)
      |                                                  ^~~~~~~~~
forms/sum_that_is_read.c:3:50: help: a reduction, by one of `+ * & | ^`, `min` and `max`, is of arrays, each of whose names in the loop begins an update by that operator, `s[0] += e;` or `if (e > s[0]) s[0] = e;`, and stands nowhere else; it stands on a construct with its loop, whose `map` clauses name all of these arrays or none
[1]
$ ompc explain forms/greatest_of_another.c
forms/greatest_of_another.c:3:50: error: `reduction` is no clause that this directive takes [E202]
    3 | #pragma omp target teams distribute parallel for reduction(max: m)
      |                                                  ^~~~~~~~~
forms/greatest_of_another.c:3:50: help: a reduction, by one of `+ * & | ^`, `min` and `max`, is of arrays, each of whose names in the loop begins an update by that operator, `s[0] += e;` or `if (e > s[0]) s[0] = e;`, and stands nowhere else; it stands on a construct with its loop, whose `map` clauses name all of these arrays or none
[1]
$ ompc run forms/greatest.c
17
10
# a temporary is an int in C, whatever the name of the loop is
$ ompc explain forms/temporary.c
forms/temporary.c: accepted
forms/temporary.c:3:60: warning: in C this has type `int`, and may be negative [W601]
    3 |     for (uint64_t i = 0; i < 8; i++) { int x = i; A[x] = x - 5 < 3; }
      |                                                            ^
forms/temporary.c:3:60: help: make an operand a `uint64_t`: `5ul`
# a scalar in its value
$ ompc explain forms/no_temporary.c
forms/no_temporary.c:3:35: error: `int` cannot stand here [E102]
    3 |     for (int i = 0; i < 8; i++) { int x = i + s; A[x % 8] = 1; }
      |                                   ^~~
forms/no_temporary.c:3:43: note: an `int` is read where each value is seen to be from 0 to 2147483647, and this one is not
    3 |     for (int i = 0; i < 8; i++) { int x = i + s; A[x % 8] = 1; }
      |                                           ^
forms/no_temporary.c:3:35: help: the one type is `uint64_t`, also written `size_t`, `unsigned long` or `unsigned long long`, without other words before it; `int` is read where each value that an `int` gets anywhere in the source is seen to be from 0 to 2^31 - 1: made of such numbers, of cells and names that are an `int` and of comparisons, without `-`, `~` and numbers of 64 bits
    3 |     for (int i = 0; i < 8; i++) { int x = i + s; A[x % 8] = 1; }
      |                                   ^~~
[1]
