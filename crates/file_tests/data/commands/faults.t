# the words, the choices, the file, the refusal of the program, the input
$ ompc step absent.c --choices 1,,2 --capacity 4294967297 < not_a_number.txt
! error: invalid value '4294967297' for '--capacity <C>': 4294967297 is not in 0..=4294967296
! 
! For more information, try '--help'.
[2]
$ ompc step absent.c --choices 1,,2 < not_a_number.txt
! bad choices
[2]
$ ompc step absent.c < not_a_number.txt
! cannot read absent.c
[2]
$ ompc step too_far.c < not_a_number.txt
! E301 item 1 line 5 column 39
[1]
$ ompc step double.c --capacity 3 < not_a_number.txt
! bad input
[2]
$ ompc run double.c < not_a_number.txt
! bad input
[2]

# choices and inputs that are no numbers, the last choice since it begins with a blank, a tab
$ ompc step double.c --choices ,
! bad choices
[2]
$ ompc step double.c --choices 1,
! bad choices
[2]
$ ompc step double.c --choices x
! bad choices
[2]
$ ompc step double.c --choices +1
! bad choices
[2]
$ ompc step double.c --choices 4294967296
! bad choices
[2]
$ ompc step double.c --choices 	1
! bad choices
[2]
$ ompc step double.c < letter.txt
! bad input
[2]
$ ompc step double.c < comma.txt
! bad input
[2]
$ ompc step double.c < minus.txt
! bad input
[2]
$ ompc step double.c < plus.txt
! bad input
[2]
$ ompc step double.c < too_large.txt
! bad input
[2]

# refusals, which check gives too
$ ompc step cut_off.c
! E102 line 1 column 17
[1]
$ ompc step large_number.c
! E105 line 2 column 7
[1]
$ ompc step long_loop.c
! E303 item 0 line 2 column 1
[1]
$ ompc step mapped_to_only.c
! E506 item 2 A[0]
[1]
$ ompc step stale_part.c
! E506 item 3 A[2]
[1]
$ ompc step exit_before_the_wait.c
! E508 item 3 A[0] with item 1
[1]
$ ompc step readers_create_both.c
! E508 item 1 A[0] with item 0
[1]
$ ompc step depends_overlap.c
! E505 item 1 A[2] with item 0
[1]
$ ompc step written_or_not_and_read.c
! E506 item 2 A[0]
[1]
$ ompc step below_the_array.c
! E301 item 0 line 3 column 39
[1]
$ ompc step stale_on_the_device.c
! E507 item 2 A[0]
[1]
$ ompc step left_twice.c
! E502 item 2 A[0]
[1]
$ ompc run mapped_to_only.c
! E506 item 2 A[0]
[1]

# a device that is too small
$ ompc step double.c --capacity 3
! F2
[3]
$ ompc run double.c --capacity 3
! F2
[3]
$ ompc run two_kernels.c --workers 1 --capacity 7
! F2
[3]
$ ompc run two_kernels.c --workers 2 --capacity 7
! F2
[3]
$ ompc run two_kernels.c --workers 16 --capacity 0
! F2
[3]
