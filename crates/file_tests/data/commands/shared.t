# what C shares between threads, and what it copies
$ ompc explain inner_loop.c
inner_loop.c:4:17: error: `target` lacks a clause for a variable that stands in its region, or bounds in one [E202]
    4 |     #pragma omp target teams distribute parallel for map(to: A) map(from: B)
      |                 ^~~~~~
inner_loop.c:4:17: help: `map(tofrom: s)` or `reduction` for a scalar that another line maps, of which C makes a copy here; `private(t)`, or a declaration in the loop, for a scalar that each turn assigns before all else, and for the name of an inner loop, which all turns share; no `nowait` where an array of a block is used; in `depend` a section behind a pointer, `p[0:N]`; in `reduction` the bounds that `map` has
[1]
$ ompc explain stop_flag.c
stop_flag.c:5:17: error: `target` lacks a clause for a variable that stands in its region, or bounds in one [E202]
    5 |     #pragma omp target
      |                 ^~~~~~
stop_flag.c:5:17: help: `map(tofrom: s)` or `reduction` for a scalar that another line maps, of which C makes a copy here; `private(t)`, or a declaration in the loop, for a scalar that each turn assigns before all else, and for the name of an inner loop, which all turns share; no `nowait` where an array of a block is used; in `depend` a section behind a pointer, `p[0:N]`; in `reduction` the bounds that `map` has
[1]
# what orders by a pointer, and sums of other cells than those that are mapped
$ ompc explain depend_on_a_parameter.c
depend_on_a_parameter.c:4:13: error: `target` lacks a clause for a variable that stands in its region, or bounds in one [E202]
    4 | #pragma omp target map(tofrom: p[0:8]) depend(inout: p) nowait
      |             ^~~~~~
depend_on_a_parameter.c:4:13: help: `map(tofrom: s)` or `reduction` for a scalar that another line maps, of which C makes a copy here; `private(t)`, or a declaration in the loop, for a scalar that each turn assigns before all else, and for the name of an inner loop, which all turns share; no `nowait` where an array of a block is used; in `depend` a section behind a pointer, `p[0:N]`; in `reduction` the bounds that `map` has
[1]
$ ompc explain taskwait_on_a_pointer.c
taskwait_on_a_pointer.c:7:13: error: `taskwait` lacks a clause for a variable that stands in its region, or bounds in one [E202]
    7 | #pragma omp taskwait depend(in: a)
      |             ^~~~~~~~
taskwait_on_a_pointer.c:7:13: help: `map(tofrom: s)` or `reduction` for a scalar that another line maps, of which C makes a copy here; `private(t)`, or a declaration in the loop, for a scalar that each turn assigns before all else, and for the name of an inner loop, which all turns share; no `nowait` where an array of a block is used; in `depend` a section behind a pointer, `p[0:N]`; in `reduction` the bounds that `map` has
[1]
$ ompc run ordered_by_sections.c
3
$ ompc explain sum_outside_of_its_section.c
sum_outside_of_its_section.c:4:13: error: `target` lacks a clause for a variable that stands in its region, or bounds in one [E202]
    4 | #pragma omp target teams distribute parallel for map(tofrom: A[0:8]) reduction(+: A[0:2])
      |             ^~~~~~
sum_outside_of_its_section.c:4:13: help: `map(tofrom: s)` or `reduction` for a scalar that another line maps, of which C makes a copy here; `private(t)`, or a declaration in the loop, for a scalar that each turn assigns before all else, and for the name of an inner loop, which all turns share; no `nowait` where an array of a block is used; in `depend` a section behind a pointer, `p[0:N]`; in `reduction` the bounds that `map` has
[1]
$ ompc check sum_of_more_than_is_mapped.c
! E202 line 4 column 13
[1]
$ ompc run sum_of_a_section.c
16
# counts and flags
$ ompc run errors.c
2
5
0
$ ompc explain errors.c
errors.c: accepted
errors.c:14:18: warning: in C this has type `int`, and may be negative [W601]
   14 |     print(errors - 1 < 5);
      |                  ^
errors.c:14:18: help: make an operand a `uint64_t`: `1ul`
# cells of one type for those of another
$ ompc explain size_of_another_type.c
size_of_another_type.c:3:27: error: `*` cannot stand here [E102]
    3 | int main(void) { uint64_t *a = malloc(8 * sizeof(int)); int *b = malloc(8 * sizeof(int)); for (int i = 0; i ..
      |                           ^
size_of_another_type.c:3:27: help: an array is a global, `uint64_t A[4];`, or `main` allocates it, outside of its blocks, with a number of cells that is a product of constants: `uint64_t *A = malloc(4 * sizeof(uint64_t));`
[1]
$ ompc check size_given_in_main.c
! E102 line 3 column 10
[1]
$ ompc explain int_array_as_another.c
int_array_as_another.c:2:5: error: `A` cannot stand here [E102]
    2 | int A[4];
      |     ^~~~
int_array_as_another.c:4:58: note: an `int` is read where each value is seen to be from 0 to 2147483647, and this one is not
    4 | int main(void) { A[0] = 1; A[1] = 1; uint64_t x = 0; x = f(A); print(x); }
      |                                                          ^
int_array_as_another.c:2:5: help: the one type is `uint64_t`, also written `size_t`, `unsigned long` or `unsigned long long`, without other words before it; `int` is read where each value that an `int` gets anywhere in the source is seen to be from 0 to 2^31 - 1: made of such numbers, of cells and names that are an `int` and of comparisons, without `-`, `~` and numbers of 64 bits
    2 | int A[4];
      |     ^~~~
[1]
$ ompc check int_pointer_gets_another.c
! E102 line 3 column 5
[1]
$ ompc run int_arrays_passed.c
4
