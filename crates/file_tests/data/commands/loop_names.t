# loops whose names are declared before them, without a value, and scalars without a value
$ ompc run loop_names.c
2352
588
$ ompc list loop_names.c
0 host
1 begin to A[0:8] tofrom B[0:8]
2 target unordered tofrom A[0:8] tofrom B[0:8]
3 target unordered tofrom A[0:8] tofrom B[0:8]
4 target unordered tofrom A[0:8] tofrom B[0:8]
5 end to A[0:8] tofrom B[0:8]
6 host
$ ompc explain behind_the_loop.c
behind_the_loop.c:5:7: error: `i` is the name of loops, and ends with each of them [E103]
    5 | print(i);
      |       ^
behind_the_loop.c:5:7: help: hold it in another scalar where a loop has it, or take another name for the loop
[1]
$ ompc explain loop_of_a_local.c
loop_of_a_local.c:4:6: error: `i` cannot stand here [E102]
    4 | for (i = 0; i < 8; i++) { A[i] = 1; }
      |      ^
loop_of_a_local.c:4:6: help: a loop counts upwards, `for (uint64_t i = NUM; i < NUM; i += NUM) { .. }`, also with `int i`, with `i <= NUM` and with `i++`, or down, `for (int i = NUM; i >= NUM; i--) { .. }`, also with `i > NUM`, each NUM a constant expression; `int i;` before it, in a block, lets it begin with `i = NUM`
[1]
# their type in C is that of the declaration
$ ompc explain loop_of_an_int.c
loop_of_an_int.c: accepted
loop_of_an_int.c:5:36: warning: in C this has type `int`, and may be undefined, since it may pass that type [W601]
    5 | for (i = 0; i < 8; i++) { A[i] = i * 1073741824; }
      |                                    ^
loop_of_an_int.c:5:36: help: make an operand a `uint64_t`: `1073741824ul`
