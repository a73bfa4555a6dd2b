# loops that end by a condition, and turns that end early
$ ompc run bounded_loops.c < three.txt
7
2
5
8
16
3
19
6
14
9
9
17
17
4
12
7
7
15
40
52
60
70
$ ompc run bounded_loops.c < zero.txt
0
1
7
2
5
8
16
3
19
6
14
9
9
17
17
4
12
33
52
56
74
$ ompc explain loop_around_a_directive.c
loop_around_a_directive.c:5:1: error: this line is a directive under an `if` [E211]
    5 | #pragma omp target
      | ^~~~~~~~~~~~~~~~~~
loop_around_a_directive.c:5:1: help: put the condition into the regions
[1]
