# texts at the edges: of a comment, of a name, of the numbers
$ ompc check open_comment.c
! E101 line 1 column 19
[1]
$ ompc check long_name.c
! E110 line 1 column 10
[1]
$ ompc check begins_past_all_numbers.c
! E302 item 0 line 3 column 39
[1]
$ ompc check longest_section.c
! E302 item 0 line 3 column 39
[1]
$ ompc check bound_below_zero.c
! E302 item 1 line 6 column 28
[1]
$ ompc run last_number.c
18446744073709551614
$ ompc check would_wrap.c
! E108 line 2 column 72
[1]
