# what regions print, on the host and on the device
$ ompc run stores_are_seen.c --capacity 4
7
7
5
$ ompc run sums_and_products_wrap.c --capacity 4
0
18446744073709551615
18446744073709551614
$ ompc run bits_at_their_edges.c --capacity 4
7
5
2
3
9223372036854775808
1
18446744073709551615
1
0
3
1
$ ompc run comparisons.c --capacity 4
0
0
1
1
1
0
1
0
0
1
0
1
0
1
0
0
1
1
$ ompc run both_or_either.c --capacity 4
0
0
1
0
1
1
$ ompc run branches.c --capacity 4
2
1
3
$ ompc run loops_in_loops.c --capacity 4
0
1
2
10
11
12
1
3
5
$ ompc run many_turns.c --capacity 4
549755289605
$ ompc run reads_past_the_end.c --capacity 4 < eight_nine.txt
8
9
0
0
