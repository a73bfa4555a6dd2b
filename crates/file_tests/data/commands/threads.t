# the same with 1, 2, 4 and 16 workers, on devices that are just large enough for all that may be open at once
$ ompc run nothing.c --workers 1 --capacity 0 --finals
$ ompc run nothing.c --workers 2 --capacity 0 --finals
$ ompc run nothing.c --workers 4 --capacity 0 --finals
$ ompc run nothing.c --workers 16 --capacity 0 --finals
$ ompc run double.c --workers 1 --capacity 4 --finals
1
3
5
7
A: 1 3 5 7
$ ompc run double.c --workers 2 --capacity 4 --finals
1
3
5
7
A: 1 3 5 7
$ ompc run double.c --workers 4 --capacity 4 --finals
1
3
5
7
A: 1 3 5 7
$ ompc run double.c --workers 16 --capacity 4 --finals
1
3
5
7
A: 1 3 5 7
$ ompc run part_updated.c --workers 1 --capacity 4 --finals
6
$ ompc run part_updated.c --workers 2 --capacity 4 --finals
6
$ ompc run part_updated.c --workers 4 --capacity 4 --finals
6
$ ompc run part_updated.c --workers 16 --capacity 4 --finals
6
$ ompc run halves.c --workers 1 --capacity 8 --finals
1
2
3
4
40
50
60
70
A: 1 2 3 4 40 50 60 70
$ ompc run halves.c --workers 2 --capacity 8 --finals
1
2
3
4
40
50
60
70
A: 1 2 3 4 40 50 60 70
$ ompc run halves.c --workers 4 --capacity 8 --finals
1
2
3
4
40
50
60
70
A: 1 2 3 4 40 50 60 70
$ ompc run halves.c --workers 16 --capacity 8 --finals
1
2
3
4
40
50
60
70
A: 1 2 3 4 40 50 60 70
$ ompc run readers_in_order.c --workers 1 --capacity 8 --finals
1
2
A: 0 0 0 0
B: 1 1 1 1
C: 2 2 2 2
$ ompc run readers_in_order.c --workers 2 --capacity 8 --finals
1
2
A: 0 0 0 0
B: 1 1 1 1
C: 2 2 2 2
$ ompc run readers_in_order.c --workers 4 --capacity 8 --finals
1
2
A: 0 0 0 0
B: 1 1 1 1
C: 2 2 2 2
$ ompc run readers_in_order.c --workers 16 --capacity 8 --finals
1
2
A: 0 0 0 0
B: 1 1 1 1
C: 2 2 2 2
$ ompc run written_or_not.c --workers 1 --capacity 2 --finals < one.txt
1
$ ompc run written_or_not.c --workers 2 --capacity 2 --finals < one.txt
1
$ ompc run written_or_not.c --workers 4 --capacity 2 --finals < one.txt
1
$ ompc run written_or_not.c --workers 16 --capacity 2 --finals < one.txt
1
$ ompc run captured.c --workers 1 --capacity 1 --finals
5
A: 5
$ ompc run captured.c --workers 2 --capacity 1 --finals
5
A: 5
$ ompc run captured.c --workers 4 --capacity 1 --finals
5
A: 5
$ ompc run captured.c --workers 16 --capacity 1 --finals
5
A: 5
$ ompc run inside_the_array.c --workers 1 --capacity 0 --finals
3
A: 1 2 3 0
$ ompc run inside_the_array.c --workers 2 --capacity 0 --finals
3
A: 1 2 3 0
$ ompc run inside_the_array.c --workers 4 --capacity 0 --finals
3
A: 1 2 3 0
$ ompc run inside_the_array.c --workers 16 --capacity 0 --finals
3
A: 1 2 3 0
$ ompc run reads_three.c --workers 1 --capacity 0 --finals < seven_eight.txt
7
8
0
$ ompc run reads_three.c --workers 2 --capacity 0 --finals < seven_eight.txt
7
8
0
$ ompc run reads_three.c --workers 4 --capacity 0 --finals < seven_eight.txt
7
8
0
$ ompc run reads_three.c --workers 16 --capacity 0 --finals < seven_eight.txt
7
8
0
$ ompc run copied_again.c --workers 1 --capacity 4 --finals
6
A: 5 0
B: 6 1
$ ompc run copied_again.c --workers 2 --capacity 4 --finals
6
A: 5 0
B: 6 1
$ ompc run copied_again.c --workers 4 --capacity 4 --finals
6
A: 5 0
B: 6 1
$ ompc run copied_again.c --workers 16 --capacity 4 --finals
6
A: 5 0
B: 6 1
$ ompc run chain.c --workers 1 --capacity 3 --finals
6
2
A: 0
B: 2
C: 6
$ ompc run chain.c --workers 2 --capacity 3 --finals
6
2
A: 0
B: 2
C: 6
$ ompc run chain.c --workers 4 --capacity 3 --finals
6
2
A: 0
B: 2
C: 6
$ ompc run chain.c --workers 16 --capacity 3 --finals
6
2
A: 0
B: 2
C: 6
$ ompc run two_kernels.c --workers 1 --capacity 16 --finals
7
13
A: 0 1 2 3 4 5 6 7
B: 13 10 10 10 10 10 10 10
$ ompc run two_kernels.c --workers 2 --capacity 16 --finals
7
13
A: 0 1 2 3 4 5 6 7
B: 13 10 10 10 10 10 10 10
$ ompc run two_kernels.c --workers 4 --capacity 16 --finals
7
13
A: 0 1 2 3 4 5 6 7
B: 13 10 10 10 10 10 10 10
$ ompc run two_kernels.c --workers 16 --capacity 16 --finals
7
13
A: 0 1 2 3 4 5 6 7
B: 13 10 10 10 10 10 10 10
$ ompc run four_kernels.c --workers 1 --capacity 4 --finals
1
2
3
4
A: 1
B: 2
C: 3
D: 4
$ ompc run four_kernels.c --workers 2 --capacity 4 --finals
1
2
3
4
A: 1
B: 2
C: 3
D: 4
$ ompc run four_kernels.c --workers 4 --capacity 4 --finals
1
2
3
4
A: 1
B: 2
C: 3
D: 4
$ ompc run four_kernels.c --workers 16 --capacity 4 --finals
1
2
3
4
A: 1
B: 2
C: 3
D: 4
$ ompc run deferred_data.c --workers 1 --capacity 4 --finals < seven_nine.txt
14
16
18
20
9
A: 14 16 18 20
$ ompc run deferred_data.c --workers 2 --capacity 4 --finals < seven_nine.txt
14
16
18
20
9
A: 14 16 18 20
$ ompc run deferred_data.c --workers 4 --capacity 4 --finals < seven_nine.txt
14
16
18
20
9
A: 14 16 18 20
$ ompc run deferred_data.c --workers 16 --capacity 4 --finals < seven_nine.txt
14
16
18
20
9
A: 14 16 18 20

# one worker needs room for one kernel at a time
$ ompc run two_kernels.c --workers 1 --capacity 8
7
13

# what is asked for
$ ompc run double.c --log --finals
1
3
5
7
open 0
close 0
open 1
close 1
open 2
close 2
end
A: 1 3 5 7
$ ompc run written_or_not.c --finals
0

# the same on a device of the size that it has where none is given
$ ompc run nothing.c --workers 1
$ ompc run nothing.c --workers 2
$ ompc run nothing.c --workers 4
$ ompc run nothing.c --workers 16
$ ompc run double.c --workers 1
1
3
5
7
$ ompc run double.c --workers 2
1
3
5
7
$ ompc run double.c --workers 4
1
3
5
7
$ ompc run double.c --workers 16
1
3
5
7
$ ompc run part_updated.c --workers 1
6
$ ompc run part_updated.c --workers 2
6
$ ompc run part_updated.c --workers 4
6
$ ompc run part_updated.c --workers 16
6
$ ompc run halves.c --workers 1
1
2
3
4
40
50
60
70
$ ompc run halves.c --workers 2
1
2
3
4
40
50
60
70
$ ompc run halves.c --workers 4
1
2
3
4
40
50
60
70
$ ompc run halves.c --workers 16
1
2
3
4
40
50
60
70
$ ompc run readers_in_order.c --workers 1
1
2
$ ompc run readers_in_order.c --workers 2
1
2
$ ompc run readers_in_order.c --workers 4
1
2
$ ompc run readers_in_order.c --workers 16
1
2
$ ompc run written_or_not.c --workers 1 < one.txt
1
$ ompc run written_or_not.c --workers 2 < one.txt
1
$ ompc run written_or_not.c --workers 4 < one.txt
1
$ ompc run written_or_not.c --workers 16 < one.txt
1
$ ompc run captured.c --workers 1
5
$ ompc run captured.c --workers 2
5
$ ompc run captured.c --workers 4
5
$ ompc run captured.c --workers 16
5
$ ompc run inside_the_array.c --workers 1
3
$ ompc run inside_the_array.c --workers 2
3
$ ompc run inside_the_array.c --workers 4
3
$ ompc run inside_the_array.c --workers 16
3
$ ompc run reads_three.c --workers 1 < seven_eight.txt
7
8
0
$ ompc run reads_three.c --workers 2 < seven_eight.txt
7
8
0
$ ompc run reads_three.c --workers 4 < seven_eight.txt
7
8
0
$ ompc run reads_three.c --workers 16 < seven_eight.txt
7
8
0
$ ompc run copied_again.c --workers 1
6
$ ompc run copied_again.c --workers 2
6
$ ompc run copied_again.c --workers 4
6
$ ompc run copied_again.c --workers 16
6
$ ompc run chain.c --workers 1
6
2
$ ompc run chain.c --workers 2
6
2
$ ompc run chain.c --workers 4
6
2
$ ompc run chain.c --workers 16
6
2
$ ompc run two_kernels.c --workers 1
7
13
$ ompc run two_kernels.c --workers 2
7
13
$ ompc run two_kernels.c --workers 4
7
13
$ ompc run two_kernels.c --workers 16
7
13
$ ompc run four_kernels.c --workers 1
1
2
3
4
$ ompc run four_kernels.c --workers 2
1
2
3
4
$ ompc run four_kernels.c --workers 4
1
2
3
4
$ ompc run four_kernels.c --workers 16
1
2
3
4
$ ompc run deferred_data.c --workers 1 < seven_nine.txt
14
16
18
20
9
$ ompc run deferred_data.c --workers 2 < seven_nine.txt
14
16
18
20
9
$ ompc run deferred_data.c --workers 4 < seven_nine.txt
14
16
18
20
9
$ ompc run deferred_data.c --workers 16 < seven_nine.txt
14
16
18
20
9

$ ompc run below_zero.c --workers 1 --finals
18446744073709551615
$ ompc run below_zero.c --workers 2 --finals
18446744073709551615
$ ompc run below_zero.c --workers 4 --finals
18446744073709551615
$ ompc run below_zero.c --workers 16 --finals
18446744073709551615
$ ompc run updates_in_a_loop.c --workers 1 --finals
A: 1 0 0 0
$ ompc run updates_in_a_loop.c --workers 2 --finals
A: 1 0 0 0
$ ompc run updates_in_a_loop.c --workers 4 --finals
A: 1 0 0 0
$ ompc run updates_in_a_loop.c --workers 16 --finals
A: 1 0 0 0
$ ompc run last_number.c --workers 1 --finals
18446744073709551614
$ ompc run last_number.c --workers 2 --finals
18446744073709551614
$ ompc run last_number.c --workers 4 --finals
18446744073709551614
$ ompc run last_number.c --workers 16 --finals
18446744073709551614
$ ompc run present_in_data.c --workers 1 --finals
6
$ ompc run present_in_data.c --workers 2 --finals
6
$ ompc run present_in_data.c --workers 4 --finals
6
$ ompc run present_in_data.c --workers 16 --finals
6
$ ompc run many_kernels.c --workers 1 --finals
A: 0
$ ompc run many_kernels.c --workers 2 --finals
A: 0
$ ompc run many_kernels.c --workers 4 --finals
A: 0
$ ompc run many_kernels.c --workers 16 --finals
A: 0
$ ompc run apart_on_two_devices.c --workers 1 --finals
A: 0 0 0 0
$ ompc run apart_on_two_devices.c --workers 2 --finals
A: 0 0 0 0
$ ompc run apart_on_two_devices.c --workers 4 --finals
A: 0 0 0 0
$ ompc run apart_on_two_devices.c --workers 16 --finals
A: 0 0 0 0
$ ompc run brought_to_another_device.c --workers 1 --finals
7
7
A: 7 7
$ ompc run brought_to_another_device.c --workers 2 --finals
7
7
A: 7 7
$ ompc run brought_to_another_device.c --workers 4 --finals
7
7
A: 7 7
$ ompc run brought_to_another_device.c --workers 16 --finals
7
7
A: 7 7
$ ompc run kernels_on_two_devices.c --workers 1 --finals
7
13
A: 0 1 2 3 4 5 6 7
B: 13 10 10 10 10 10 10 10
$ ompc run kernels_on_two_devices.c --workers 2 --finals
7
13
A: 0 1 2 3 4 5 6 7
B: 13 10 10 10 10 10 10 10
$ ompc run kernels_on_two_devices.c --workers 4 --finals
7
13
A: 0 1 2 3 4 5 6 7
B: 13 10 10 10 10 10 10 10
$ ompc run kernels_on_two_devices.c --workers 16 --finals
7
13
A: 0 1 2 3 4 5 6 7
B: 13 10 10 10 10 10 10 10
