# what the directives did on the tables of the devices, behind the log and before the values of arrays
# a section that is held around a target: it is counted twice there, and only what is updated is copied
$ ompc run held_for_a_target.c --maps
6
line 4 device 0 create A[0:4]
line 4 device 0 count A[0:4] 1
line 6 device 0 count A[0:4] 2
line 6 device 0 count A[0:4] 1
line 8 device 0 copy-from A[0:2]
line 4 device 0 count A[0:4] 0
line 4 device 0 remove A[0:4]
$ ompc run held_for_a_target.c --log --maps --finals
6
open 0
close 0
open 1
close 1
open 2
close 2
open 3
close 3
open 4
close 4
end
line 4 device 0 create A[0:4]
line 4 device 0 count A[0:4] 1
line 6 device 0 count A[0:4] 2
line 6 device 0 count A[0:4] 1
line 8 device 0 copy-from A[0:2]
line 4 device 0 count A[0:4] 0
line 4 device 0 remove A[0:4]
$ ompc step held_for_a_target.c --maps
6
open 0
close 0
open 1
close 1
open 2
close 2
open 3
close 3
open 4
close 4
end
line 4 device 0 create A[0:4]
line 4 device 0 count A[0:4] 1
line 6 device 0 count A[0:4] 2
line 6 device 0 count A[0:4] 1
line 8 device 0 copy-from A[0:2]
line 4 device 0 count A[0:4] 0
line 4 device 0 remove A[0:4]

# two devices, each with its half and one cell of the other; the deferred targets one after the other
$ ompc step halves_with_a_border.c --maps
0
6
18
43
86
153
250
383
558
781
1058
1395
1798
2269
2803
3375
open 0
close 0
open 1
close 1
open 2
close 2
gen 3
open 3
close 3
gen 4
open 4
close 4
wait 5
open 6
close 6
open 7
close 7
open 8
close 8
open 9
close 9
gen 10
open 10
close 10
gen 11
open 11
close 11
wait 12
open 13
close 13
open 14
close 14
open 15
close 15
open 16
close 16
gen 17
open 17
close 17
gen 18
open 18
close 18
wait 19
open 20
close 20
open 21
close 21
open 22
close 22
open 23
close 23
gen 24
open 24
close 24
gen 25
open 25
close 25
wait 26
open 27
close 27
open 28
close 28
open 29
close 29
open 30
close 30
open 31
close 31
open 32
close 32
open 33
close 33
end
line 8 device 0 create A[0:9]
line 8 device 0 count A[0:9] 1
line 8 device 0 copy-to A[0:9]
line 8 device 0 create B[0:9]
line 8 device 0 count B[0:9] 1
line 9 device 1 create A[7:9]
line 9 device 1 count A[7:9] 1
line 9 device 1 copy-to A[7:9]
line 9 device 1 create B[7:9]
line 9 device 1 count B[7:9] 1
line 11 device 0 count A[0:9] 2
line 11 device 0 count B[0:9] 2
line 11 device 0 count A[0:9] 1
line 11 device 0 count B[0:9] 1
line 16 device 1 count A[7:9] 2
line 16 device 1 count B[7:9] 2
line 16 device 1 count A[7:9] 1
line 16 device 1 count B[7:9] 1
line 22 device 0 copy-from B[7:1]
line 23 device 1 copy-to B[7:1]
line 24 device 1 copy-from B[8:1]
line 25 device 0 copy-to B[8:1]
line 26 device 0 count A[0:9] 2
line 26 device 0 count B[0:9] 2
line 26 device 0 count A[0:9] 1
line 26 device 0 count B[0:9] 1
line 31 device 1 count A[7:9] 2
line 31 device 1 count B[7:9] 2
line 31 device 1 count A[7:9] 1
line 31 device 1 count B[7:9] 1
line 37 device 0 copy-from A[7:1]
line 38 device 1 copy-to A[7:1]
line 39 device 1 copy-from A[8:1]
line 40 device 0 copy-to A[8:1]
line 11 device 0 count A[0:9] 2
line 11 device 0 count B[0:9] 2
line 11 device 0 count A[0:9] 1
line 11 device 0 count B[0:9] 1
line 16 device 1 count A[7:9] 2
line 16 device 1 count B[7:9] 2
line 16 device 1 count A[7:9] 1
line 16 device 1 count B[7:9] 1
line 22 device 0 copy-from B[7:1]
line 23 device 1 copy-to B[7:1]
line 24 device 1 copy-from B[8:1]
line 25 device 0 copy-to B[8:1]
line 26 device 0 count A[0:9] 2
line 26 device 0 count B[0:9] 2
line 26 device 0 count A[0:9] 1
line 26 device 0 count B[0:9] 1
line 31 device 1 count A[7:9] 2
line 31 device 1 count B[7:9] 2
line 31 device 1 count A[7:9] 1
line 31 device 1 count B[7:9] 1
line 37 device 0 copy-from A[7:1]
line 38 device 1 copy-to A[7:1]
line 39 device 1 copy-from A[8:1]
line 40 device 0 copy-to A[8:1]
line 42 device 0 copy-from A[0:8]
line 43 device 1 copy-from A[8:8]

# not where each action on a table is an event
$ ompc step held_for_a_target.c --fine --maps
! no maps with --fine
[2]
