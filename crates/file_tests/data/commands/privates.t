# clauses private, of names of loops and of scalars that each turn assigns before all else
$ ompc run privates.c
4676
4964
5268
5588
5924
6276
6644
7028
$ ompc explain not_private.c
not_private.c:4:13: error: `target` lacks a clause for a variable that stands in its region, or bounds in one [E202]
    4 | #pragma omp target teams distribute parallel for
      |             ^~~~~~
not_private.c:4:13: help: `map(tofrom: s)` or `reduction` for a scalar that another line maps, of which C makes a copy here; `private(t)`, or a declaration in the loop, for a scalar that each turn assigns before all else, and for the name of an inner loop, which all turns share; no `nowait` where an array of a block is used; in `depend` a section behind a pointer, `p[0:N]`; in `reduction` the bounds that `map` has
[1]
$ ompc explain private_read_first.c
private_read_first.c:4:50: error: `private` is no clause that this directive takes [E202]
    4 | #pragma omp target teams distribute parallel for private(t)
      |                                                  ^~~~~~~
private_read_first.c:4:50: help: `private` is left out where the loop declares its names, or assigns a scalar before all else that is declared before it without a value, `uint64_t t;`
[1]
$ ompc explain private_of_a_value.c
private_of_a_value.c:4:50: error: `private` is no clause that this directive takes [E202]
    4 | #pragma omp target teams distribute parallel for private(t)
      |                                                  ^~~~~~~
private_of_a_value.c:4:50: help: `private` is left out where the loop declares its names, or assigns a scalar before all else that is declared before it without a value, `uint64_t t;`
[1]
