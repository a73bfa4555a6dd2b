# items of loops, of target data, deferred ones, and their depend items
$ ompc list updates_in_a_loop.c
0 enter to A[0:4]
1 update to A[0:1]
2 host
3 update to A[2:1]
4 host
$ ompc list target_data.c
0 begin alloc A[0:4]
1 target tofrom A[0:4]
2 update from A[0:2]
3 host
4 end alloc A[0:4]
$ ompc list halves.c
0 enter to A[0:8]
1 target nowait tofrom A[0:4]
2 target nowait tofrom A[4:4]
3 wait
4 update from A[0:8]
5 host
$ ompc list chain.c
0 target nowait tofrom C[0:1] dep-out A[0:1]
1 target nowait tofrom B[0:1] dep-in A[0:1] dep-out B[0:1]
2 target nowait tofrom C[0:1] dep-in B[0:1]
3 wait
4 host

# empty blocks
$ ompc list an_empty_block.c
0 host
$ ompc list nothing.c
$ ompc list empty_data.c
0 begin alloc A[0:4]
1 end alloc A[0:4]
$ ompc list loop_in_data.c
0 begin alloc A[0:4]
1 host
2 end alloc A[0:4]

# items are counted before loops are walked
$ ompc list no_item_many_times.c
$ ompc list an_item_many_times.c
! E401
[1]

# faults of the text and of the words
$ ompc list undeclared.c
! E103 line 2 column 28
[1]
$ ompc list absent.c
! cannot read absent.c
[2]

# bounds of which terms are taken away
$ ompc list terms_taken_away.c
0 target tofrom A[0:3]
1 target tofrom A[2:2]
2 target tofrom A[4:1]
3 host
$ ompc run terms_taken_away.c
3
