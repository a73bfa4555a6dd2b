# two targets, each of which adds 1 to the same cell on the device, and one of the additions lost
$ ompc check lost_addition.c
! E508 item 2 A[0] with item 1
[1]
$ ompc step lost_addition.c
! E508 item 2 A[0] with item 1
[1]
$ ompc step lost_addition.c --fine
2
open 0
step 0
step 0
close 0
gen 1
open 1
step 1
step 1
step 1
step 1
close 1
gen 2
open 2
step 2
step 2
step 2
step 2
close 2
wait 3
open 4
step 4
close 4
open 5
step 5
close 5
end
$ ompc step lost_addition.c --fine --choices 0,0,0,0,0,0,1,1,0,0,1,1
1
open 0
step 0
step 0
close 0
gen 1
open 1
gen 2
open 2
step 1
step 1
step 2
step 2
step 1
step 1
close 1
step 2
step 2
close 2
wait 3
open 4
step 4
close 4
open 5
step 5
close 5
end

# an update that was forgotten: the host prints what it had
$ ompc check update_forgotten.c
! E506 item 2 A[0]
[1]
$ ompc step update_forgotten.c --fine
0
open 0
step 0
step 0
close 0
open 1
step 1
step 1
step 1
close 1
open 2
step 2
close 2
end

# an array that is not copied back
$ ompc step mapped_to_only.c --fine
0
1
2
3
open 0
step 0
step 0
step 0
step 0
close 0
open 1
step 1
step 1
step 1
step 1
step 1
step 1
step 1
step 1
step 1
step 1
step 1
step 1
step 1
step 1
step 1
close 1
open 2
step 2
step 2
step 2
step 2
close 2
end

# a cell of created storage that was not stored
$ ompc step written_or_not_and_read.c --fine < zero.txt
11936128518282651045
open 0
close 0
open 1
step 1
step 1
step 1
step 1
step 1
close 1
open 2
step 2
close 2
end

# a fault of range, for which nothing is run; input and choices are looked at before
$ ompc step below_the_array.c --fine
! F7
[3]
$ ompc step below_the_array.c --fine < letter.txt
! bad input
[2]
$ ompc step below_the_array.c --fine --choices 1,,2 < letter.txt
! bad choices
[2]

# what stands before the run
$ ompc step cut_off.c --fine
! E102 line 1 column 17
[1]
$ ompc step one_item_more.c --fine < letter.txt
! E401
[1]

# a device that is full, and a cell that is not there
$ ompc step mapped_to_only.c --fine --capacity 3
! F2
[3]
$ ompc step not_mapped.c --fine
! F4
[3]
