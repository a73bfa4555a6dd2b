# accepted, with the arrays that are current on the host at the end
$ ompc check nothing.c
accepted
$ ompc check two_arrays_unused.c
accepted
current A
current B
$ ompc check part_updated.c
accepted
$ ompc check thousand_kernels.c
accepted
current A
$ ompc check both_read.c
accepted
current A
$ ompc check host_beside_a_creation.c
accepted
current A
$ ompc check halves.c
accepted
current A
$ ompc check readers_in_order.c
accepted
current A
current B
current C
$ ompc check written_or_not.c
accepted
$ ompc check inside_the_array.c
accepted
current A
$ ompc check copied_again.c
accepted
current A
current B
$ ompc check chain.c
accepted
current A
current B
current C
$ ompc check most_items.c
accepted

# a cell or section beyond its array
$ ompc check below_the_array.c
! E301 item 0 line 3 column 39
[1]
$ ompc list below_the_array.c
! E301 item 0 line 3 column 39
[1]
$ ompc check past_the_array.c
! E302 item 0 line 3 column 39
[1]
$ ompc list past_the_array.c
! E302 item 0 line 3 column 39
[1]
$ ompc check empty_section.c
! E302 item 0 line 3 column 39
[1]
$ ompc list empty_section.c
! E302 item 0 line 3 column 39
[1]

# depend items that overlap in part
$ ompc check depends_overlap.c
! E505 item 1 A[2] with item 0
[1]
$ ompc list depends_overlap.c
! E505 item 1 A[2] with item 0
[1]

# maps
$ ompc check mapped_in_part.c
! E501 item 1 A[0]
[1]
$ ompc list mapped_in_part.c
! E501 item 1 A[0]
[1]
$ ompc check left_twice.c
! E502 item 2 A[0]
[1]
$ ompc list left_twice.c
! E502 item 2 A[0]
[1]
$ ompc check not_mapped.c
! E504 item 0 A[2]
[1]
$ ompc list not_mapped.c
! E504 item 0 A[2]
[1]

# stale reads
$ ompc check mapped_to_only.c
! E506 item 2 A[0]
[1]
$ ompc list mapped_to_only.c
! E506 item 2 A[0]
[1]
$ ompc check stale_part.c
! E506 item 3 A[2]
[1]
$ ompc list stale_part.c
! E506 item 3 A[2]
[1]
$ ompc check written_or_not_and_read.c
! E506 item 2 A[0]
[1]
$ ompc list written_or_not_and_read.c
! E506 item 2 A[0]
[1]
$ ompc check stale_on_the_device.c
! E507 item 2 A[0]
[1]
$ ompc check thousand_kernels_to.c
! E507 item 2 A[0]
[1]
$ ompc list stale_on_the_device.c
! E507 item 2 A[0]
[1]

# turns that may run in any order
$ ompc check next_cell.c
! E510 item 0 A[1]
[1]
$ ompc check one_cell_of_two_turns.c
! E510 item 0 A[0]
[1]

# conflicts of items of which neither is before the other
$ ompc check exit_before_the_wait.c
! E508 item 3 A[0] with item 1
[1]
$ ompc list exit_before_the_wait.c
! E508 item 3 A[0] with item 1
[1]
$ ompc check readers_create_both.c
! E508 item 1 A[0] with item 0
[1]
$ ompc list readers_create_both.c
! E508 item 1 A[0] with item 0
[1]
$ ompc check broken_chain.c
! E508 item 2 C[0] with item 0
[1]
$ ompc list broken_chain.c
! E508 item 2 C[0] with item 0
[1]
$ ompc check several_cells.c
! E508 item 2 A[5] with item 1
[1]
$ ompc list several_cells.c
! E508 item 2 A[5] with item 1
[1]
$ ompc check host_beside_a_copy_in.c
! E508 item 2 A[5] with item 1
[1]
$ ompc list host_beside_a_copy_in.c
! E508 item 2 A[5] with item 1
[1]
$ ompc check host_beside_a_copy_out.c
! E508 item 2 A[6] with item 1
[1]
$ ompc list host_beside_a_copy_out.c
! E508 item 2 A[6] with item 1
[1]

# more than 65,536 items
$ ompc check one_item_more.c
! E401
[1]
$ ompc list one_item_more.c
! E401
[1]
