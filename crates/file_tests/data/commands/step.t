# choices beyond the enabled events, no choice at all, a device that is just large enough
$ ompc step nothing.c
end
$ ompc step double.c
1
3
5
7
open 0
close 0
open 1
close 1
open 2
close 2
end
$ ompc step double.c --choices 3,0,2
1
3
5
7
open 0
close 0
open 1
close 1
open 2
close 2
end
$ ompc step --choices= double.c < spaces.txt
1
3
5
7
open 0
close 0
open 1
close 1
open 2
close 2
end
$ ompc step double.c --capacity 4
1
3
5
7
open 0
close 0
open 1
close 1
open 2
close 2
end
$ ompc step double.c --choices 4294967295,007
1
3
5
7
open 0
close 0
open 1
close 1
open 2
close 2
end
$ ompc step double.c < zeros_before.txt
1
3
5
7
open 0
close 0
open 1
close 1
open 2
close 2
end
$ ompc step below_zero.c
18446744073709551615
open 0
close 0
end

# the order that choices take
$ ompc step halves.c --choices 0,0,0,0,1,1,1
1
2
3
4
40
50
60
70
open 0
close 0
gen 1
open 1
gen 2
open 2
close 2
close 1
wait 3
open 4
close 4
open 5
close 5
end
$ ompc step captured.c --choices 0,0,0,1
5
open 0
close 0
gen 1
open 2
close 2
open 1
close 1
wait 3
open 4
close 4
end

# a device that is full in some orders
$ ompc step two_kernels.c --capacity 8 --choices 0,0,0,0,1,1
! F2
[3]
$ ompc step two_kernels.c --capacity 8
7
13
open 0
close 0
gen 1
open 1
close 1
gen 2
open 2
close 2
wait 3
open 4
close 4
end
$ ompc step two_kernels.c --capacity 16 --choices 0,0,0,0,1,1
7
13
open 0
close 0
gen 1
open 1
gen 2
open 2
close 1
close 2
wait 3
open 4
close 4
end
