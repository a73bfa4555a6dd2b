# choices by which a program prints something else than without directives, in runs of equal ones
$ ompc witness lost_addition.c
choices 0*6,1,0,1*3
output 1
erased output 2
first difference line 1: 1, erased 2
ompc step --fine lost_addition.c --choice-runs '0*6,1,0,1*3'
$ ompc step --fine lost_addition.c --choices 0,0,0 --choice-runs 0*3,1,0*1,1*003
1
open 0
step 0
step 0
close 0
gen 1
open 1
gen 2
step 1
open 2
step 2
step 2
step 1
step 1
step 1
close 1
step 2
step 2
close 2
wait 3
open 4
step 4
close 4
open 5
step 5
close 5
end

# such runs that are none, and choices that are too many
$ ompc step double.c --choice-runs 1*
! bad choices
[2]
$ ompc step double.c --choice-runs *2
! bad choices
[2]
$ ompc step double.c --choice-runs 1*2*3
! bad choices
[2]
$ ompc step double.c --choice-runs 1,,2
! bad choices
[2]
$ ompc step double.c --choice-runs 0*16777215,1,1
! bad choices
[2]
$ ompc step double.c --choice-runs 4294967296
! bad choices
[2]
$ ompc step double.c --choices , --choice-runs ,
! bad choices
[2]

# the run in program order is wrong
$ ompc witness update_forgotten.c
in program order
choices
output 0
erased output 7
first difference line 1: 0, erased 7
ompc step --fine update_forgotten.c

# a name that a shell would read otherwise
$ ompc witness it's.c
in program order
choices
output 0
erased output 5
first difference line 1: 0, erased 5
ompc step --fine 'it'\''s.c'

# an order of turns: both load the cell before the first stores it; the last turn stores before the one before it
$ ompc witness added_in_two_turns.c
choices
turns 1
output 1
erased output 2
first difference line 1: 1, erased 2
ompc step --fine added_in_two_turns.c --turns 1
$ ompc step --fine added_in_two_turns.c --turns 1
1
open 0
step 0
step 0
close 0
open 1
step 1
step 1
step 1
step 1
step 1
step 1
close 1
open 2
step 2
close 2
open 3
step 3
close 3
end
$ ompc witness one_cell_of_two_turns.c
choices
turns 7
output 0
erased output 1
first difference line 1: 0, erased 1
ompc step --fine one_cell_of_two_turns.c --turns 7

# runs that stop, and at which action: a store past what is mapped, a load, an entry that lies in a block in part, one that
# is to be present and is not, and a copy to the host
$ ompc witness not_mapped.c
in program order
choices
stopped F4
stopped at line 3: store to A[2] on device 0
ompc step --fine not_mapped.c
$ ompc witness half_of_the_structs.c
in program order
choices
stopped F4
stopped at line 5: load of P[8] on device 0
erased output 3
ompc step --fine half_of_the_structs.c
$ ompc witness in_part_on_one_device.c
in program order
choices
stopped F4
stopped at line 4: entry of A[1:3] on device 0
ompc step --fine in_part_on_one_device.c
$ ompc witness present_alone.c
in program order
choices
stopped F4
stopped at line 3: entry of A[0:4] on device 0
ompc step --fine present_alone.c
$ ompc witness no_wait_before_the_end.c
choices 0*9,1*2
stopped F4
stopped at line 3: copy from A[0] on device 0
erased output 2
ompc step --fine no_wait_before_the_end.c --choice-runs '0*9,1*2'

# an update that fails where it is opened has no action
$ ompc witness present_update_alone.c
in program order
choices
stopped F4
ompc step --fine present_update_alone.c

# none is found, and none is looked for
$ ompc witness update_alone.c
! no schedule found in 512 tries
[3]
$ ompc witness double.c
! accepted: no schedule differs
[3]
$ ompc witness below_the_array.c
! E301 item 0 line 3 column 39
[1]
$ ompc witness cut_off.c
! E102 line 1 column 17
[1]
$ ompc witness double.c < letter.txt
! accepted: no schedule differs
[3]
$ ompc witness lost_addition.c < letter.txt
! bad input
[2]
