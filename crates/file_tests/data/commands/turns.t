# loops of directives whose head repeats at the second turn or the third, and that are in one another
$ ompc list head_repeats.c
0 begin tofrom A[0:4] alloc B[0:4]
1 target tofrom A[0:4] tofrom B[0:4]
2 target tofrom A[0:4] tofrom B[0:4]
3 target tofrom A[0:4] tofrom B[0:4]
4 target tofrom A[0:4] tofrom B[0:4]
5 target tofrom A[0:4] tofrom B[0:4]
6 target tofrom A[0:4] tofrom B[0:4]
7 target tofrom A[0:4] tofrom B[0:4]
8 target tofrom A[0:4] tofrom B[0:4]
9 target tofrom A[0:4] tofrom B[0:4]
10 target tofrom A[0:4] tofrom B[0:4]
11 end tofrom A[0:4] alloc B[0:4]
$ ompc check head_repeats.c
accepted
current A
$ ompc check written_by_both.c
accepted
current A
$ ompc check turns_in_turns.c
accepted
current A
$ ompc check turns_apart.c
accepted
current A

# reference counts alone differ from turn to turn
$ ompc check left_in_each_turn.c
! E502 item 8 A[0]
[1]
$ ompc check entered_in_each_turn.c
! E509 item 11 A[0]
[1]
