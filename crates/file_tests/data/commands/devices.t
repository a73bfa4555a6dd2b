# sections that are to be present
$ ompc check present_in_data.c
accepted
$ ompc run present_in_data.c
6
$ ompc check present_alone.c
! E509 item 0 A[0]
[1]
$ ompc check present_update_alone.c
! E509 item 0 A[0]
[1]
$ ompc check update_alone.c
! E503 item 0 A[0]
[1]

# more items than 4,096, as many as there may be, and two more
$ ompc check waits_4097.c
accepted
$ ompc check many_kernels.c
accepted
current A
$ ompc check too_many_kernels.c
! E401
[1]

# a table for each device, and a kernel's writes, which spoil the other devices
$ ompc check apart_on_two_devices.c
accepted
current A
$ ompc check in_part_on_one_device.c
! E501 item 1 A[1]
[1]
$ ompc check stale_on_another_device.c
! E507 item 3 A[0]
[1]
$ ompc step brought_to_another_device.c
7
7
open 0
close 0
open 1
close 1
open 2
close 2
open 3
close 3
open 4
close 4
open 5
close 5
open 6
close 6
open 7
close 7
end

# each device has room for one of the arrays, and both kernels are open at once
$ ompc step kernels_on_two_devices.c --capacity 8 --choices 0,0,0,0,1,1
7
13
open 0
close 0
gen 1
open 1
gen 2
open 2
close 1
close 2
wait 3
open 4
close 4
end
$ ompc run kernels_on_two_devices.c --capacity 8
7
13

# the listing has devices and what is to be present
$ ompc list kernels_on_two_devices.c
0 host
1 target nowait tofrom A[0:8]
2 target nowait device 1 tofrom B[0:8]
3 wait
4 host
$ ompc list present_in_data.c
0 begin alloc A[0:4]
1 target present alloc A[0:4]
2 update from A[0:2]
3 host
4 end alloc A[0:4]
