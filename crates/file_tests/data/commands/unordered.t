# turns of a loop that may run in any order
$ ompc list unordered_loops.c
0 target nowait device 1 unordered from A[0:4]
1 wait
2 target unordered 2 tofrom B[0:9]
3 target unordered tofrom B[0:9]
4 host
$ ompc check unordered_loops.c
accepted
current A
current B
$ ompc run unordered_loops.c
5

# a turn that reads what the one before it wrote
$ ompc check shifted_in_place.c
! E510 item 0 A[1]
[1]
$ ompc list shifted_in_place.c
! E510 item 0 A[1]
[1]
$ ompc run shifted_in_place.c
! E510 item 0 A[1]
[1]

# the turns of the outer loop are independent, and those of both loops are not
$ ompc check rows_of_one_array.c
! E510 item 1 A[0]
[1]

# two turns that add to one cell: in order, and so that both load it before one stores it
$ ompc check added_in_two_turns.c
! E510 item 1 A[0]
[1]
$ ompc step added_in_two_turns.c
! E510 item 1 A[0]
[1]
$ ompc step added_in_two_turns.c --fine
2
open 0
step 0
step 0
close 0
open 1
step 1
step 1
step 1
step 1
step 1
step 1
close 1
open 2
step 2
close 2
open 3
step 3
close 3
end
$ ompc step added_in_two_turns.c --fine --turns 1,1
2
open 0
step 0
step 0
close 0
open 1
step 1
step 1
step 1
step 1
step 1
step 1
close 1
open 2
step 2
close 2
open 3
step 3
close 3
end
$ ompc step added_in_two_turns.c --fine --turns 0,1,0,1
1
open 0
step 0
step 0
close 0
open 1
step 1
step 1
step 1
step 1
step 1
step 1
close 1
open 2
step 2
close 2
open 3
step 3
close 3
end
$ ompc step added_in_two_turns.c --fine --turns 0,,1
! bad turns
[2]
$ ompc step double.c --turns x
! bad turns
[2]
$ ompc step double.c --turns x --choices x
! bad choices
[2]
