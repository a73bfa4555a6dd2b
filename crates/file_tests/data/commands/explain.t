# why a program is refused: the place with its line, what earlier items have to do with it, what could be written, which change is accepted;
# the line of check besides

# subscripts, sections and counts out of range
$ ompc explain below_the_array.c
below_the_array.c:3:39: error: the subscript of A is 18446744073709551615, and A has 4 cells (in the turn i = 0) [E301]
    3 | for (uint64_t i = 0; i < 4; i += 1) { A[i - 1] = i; }
      |                                       ^~~~~~~~
below_the_array.c:1:10: note: A has the cells 0 to 3
    1 | uint64_t A[4];
      |          ^~~~
below_the_array.c:3:39: help: put it under an `if` that the values of the loops decide, or change the bounds of the loop
    3 | for (uint64_t i = 0; i < 4; i += 1) { A[i - 1] = i; }
      |                                       ^~~~~~~~
[1]
$ ompc explain too_far.c
too_far.c:5:39: error: the subscript of A is 4, and A has 4 cells (in the turn i = 4) [E301]
    5 | for (uint64_t i = 0; i < 5; i += 1) { A[i] = A[i] * 2 + 1; }
      |                                       ^~~~
too_far.c:1:10: note: A has the cells 0 to 3
    1 | uint64_t A[4];
      |          ^~~~
too_far.c:5:39: help: put it under an `if` that the values of the loops decide, or change the bounds of the loop
    5 | for (uint64_t i = 0; i < 5; i += 1) { A[i] = A[i] * 2 + 1; }
      |                                       ^~~~
[1]
$ ompc explain loops_without_braces.c
loops_without_braces.c:4:81: error: the subscript of A is 8, and A has 8 cells (in the turn i = 3, j = 2) [E301]
    4 | ..size_t i = 0; i < 4; i++) if (i & 1) for (unsigned long j = 0; j < 4; ++j) A[i * 2 + j] += j; else A[i] = 0;
      |                                                                              ^~~~~~~~~~~~
loops_without_braces.c:1:10: note: A has the cells 0 to 7
    1 | uint64_t A[8];
      |          ^~~~
loops_without_braces.c:4:81: help: put it under an `if` that the values of the loops decide, or change the bounds of the loop
    4 | ..size_t i = 0; i < 4; i++) if (i & 1) for (unsigned long j = 0; j < 4; ++j) A[i * 2 + j] += j; else A[i] = 0;
      |                                                                              ^~~~~~~~~~~~
[1]
$ ompc explain past_the_array.c
past_the_array.c:3:39: error: the section A[1:4] has the cells 1 to 4, and A has 4 cells [E302]
    3 | #pragma omp target enter data map(to: A[1:4])
      |                                       ^~~~~~
past_the_array.c:1:10: note: A has the cells 0 to 3
    1 | uint64_t A[4];
      |          ^~~~
past_the_array.c:3:39: help: a section is FIRST:LENGTH; A[1:3] is what fits at most
    3 | #pragma omp target enter data map(to: A[1:4])
      |                                       ^~~~~~
past_the_array.c:3:1: help: this change is accepted
--- past_the_array.c
+++ past_the_array.c
@@ -3 +3 @@
-#pragma omp target enter data map(to: A[1:4])
+#pragma omp target enter data map(to: A[1:3])
[1]
$ ompc explain empty_section.c
empty_section.c:3:39: error: the section A[1:0] is empty [E302]
    3 | #pragma omp target enter data map(to: A[1:0])
      |                                       ^~~~~~
empty_section.c:1:10: note: A has the cells 0 to 3
    1 | uint64_t A[4];
      |          ^~~~
empty_section.c:3:39: help: a section is FIRST:LENGTH; A[1:3] is what fits at most
    3 | #pragma omp target enter data map(to: A[1:0])
      |                                       ^~~~~~
empty_section.c: no change found: steps 1, checks 1
[1]
$ ompc explain long_loop.c
long_loop.c:2:1: error: the loops of this region have 1048577 turns together, and 1048576 is the most [E303]
    2 | for (uint64_t i = 0; i < 1048577; i += 1) { print(i); }
      | ^~~
long_loop.c:2:1: help: split the region in two, by a directive between, or lower the counts of its loops
[1]
$ ompc explain one_item_more.c
one_item_more.c:3:1: error: the program has 65537 items, and 65536 is the most [E401]
    3 | #pragma omp taskwait
      | ^~~~~~~~~~~~~~~~~~~~
one_item_more.c:3:1: note: each turn of the loop over i has items of its own: a run of statements between directives is one, a directive is one, a `target data` two
one_item_more.c:3:1: help: move the loop into a target, or lower its count
[1]

# sections that are not where a directive needs them
$ ompc explain mapped_in_part.c
mapped_in_part.c:6:1: error: the implicit `map(tofrom: A[0:8])` overlaps A[0:4], which is on device 0, without lying inside it [E501]
    6 | for (uint64_t i = 0; i < 4; i += 1) { A[i] = i + 5; }
      | ^~~
mapped_in_part.c:3:36: note: A[0:4] is on device 0 since it was entered here
    3 | #pragma omp target data map(alloc: A[0:4])
      |                                    ^~~~~~
mapped_in_part.c:5:1: help: write `map(tofrom: A[0:4])` on this line, which maps all of A[0:8] without it
    5 | #pragma omp target
      | ^~~~~~~~~~~~~~~~~~
mapped_in_part.c:5:1: help: this change is accepted
--- mapped_in_part.c
+++ mapped_in_part.c
@@ -5 +5 @@
-#pragma omp target
+#pragma omp target map(tofrom: A[0:4])
[1]
$ ompc explain in_part_on_one_device.c
in_part_on_one_device.c:4:39: error: `map(to: A[1:3])` overlaps A[0:3], which is on device 0, without lying inside it [E501]
    4 | #pragma omp target enter data map(to: A[1:3])
      |                                       ^~~~~~
in_part_on_one_device.c:3:39: note: A[0:3] is on device 0 since it was entered here
    3 | #pragma omp target enter data map(to: A[0:3])
      |                                       ^~~~~~
in_part_on_one_device.c:4:39: help: name A[0:3] here, or a section inside it; or enter all of A[1:3] there
    4 | #pragma omp target enter data map(to: A[1:3])
      |                                       ^~~~~~
in_part_on_one_device.c:4:1: help: this change is accepted
--- in_part_on_one_device.c
+++ in_part_on_one_device.c
@@ -4 +4 @@
-#pragma omp target enter data map(to: A[1:3])
+#pragma omp target enter data map(to: A[1:2])
[1]
$ ompc explain block_one_short.c
block_one_short.c:5:32: error: `map(tofrom: A[0:8])` overlaps A[0:7], which is on device 0, without lying inside it [E501]
    5 | #pragma omp target map(tofrom: A)
      |                                ^
block_one_short.c:3:37: note: A[0:7] is on device 0 since it was entered here
    3 | #pragma omp target data map(tofrom: A[0:7])
      |                                     ^~~~~~
block_one_short.c:3:37: help: enter all of A[0:8] here: the target touches A[0:8], and A[0:7] is not enough
block_one_short.c:3:1: help: this change is accepted
--- block_one_short.c
+++ block_one_short.c
@@ -3 +3 @@
-#pragma omp target data map(tofrom: A[0:7])
+#pragma omp target data map(tofrom: A[0:8])
[1]
$ ompc explain left_twice.c
left_twice.c:3:33: error: the end of `target data` leaves A[0:2], which is not on device 0 [E502]
    3 | #pragma omp target data map(to: A)
      |                                 ^
left_twice.c:5:42: note: A[0] was removed from device 0 here
    5 | #pragma omp target exit data map(delete: A)
      |                                          ^
left_twice.c:5:42: help: take this line away: the block that ends at line 6 leaves A[0:2] there
left_twice.c:5:1: help: this change is accepted
--- left_twice.c
+++ left_twice.c
@@ -5 +4,0 @@
-#pragma omp target exit data map(delete: A)
[1]
$ ompc explain left_already.c
left_already.c:5:42: error: `target exit data` leaves A[0:4], which is not on device 0 [E502]
    5 | #pragma omp target exit data map(delete: A)
      |                                          ^
left_already.c:4:40: note: A[0] was removed from device 0 here
    4 | #pragma omp target exit data map(from: A)
      |                                        ^
left_already.c:5:42: help: A[0:4] was left at line 4 already: take this line away
    5 | #pragma omp target exit data map(delete: A)
      |                                          ^
left_already.c:5:1: help: this change is accepted
--- left_already.c
+++ left_already.c
@@ -5 +4,0 @@
-#pragma omp target exit data map(delete: A)
[1]
$ ompc explain left_with_another.c
left_with_another.c:6:40: error: `target exit data` leaves A[0:4], which is not on device 0 [E502]
    6 | #pragma omp target exit data map(from: A, B)
      |                                        ^
left_with_another.c:5:40: note: A[0] was removed from device 0 here
    5 | #pragma omp target exit data map(from: A)
      |                                        ^
left_with_another.c:6:40: help: A[0:4] was left at line 5 already: take this map item away
    6 | #pragma omp target exit data map(from: A, B)
      |                                        ^
left_with_another.c:6:1: help: this change is accepted
--- left_with_another.c
+++ left_with_another.c
@@ -6 +6 @@
-#pragma omp target exit data map(from: A, B)
+#pragma omp target exit data map(from: B)
@@ -8 +8 @@
-#pragma omp target exit data \
+
@@ -9 +8,0 @@
-    map(release: A)
[1]
$ ompc explain left_before_the_next_turn.c
left_before_the_next_turn.c:7:40: error: `target exit data` leaves A[0:4], which is not on device 0 (in the turn t = 1) [E502]
    7 | #pragma omp target exit data map(from: A)
      |                                        ^
left_before_the_next_turn.c:6:1: note: A[0] was removed from device 0 here
    6 | for (uint64_t i = 0; i < 4; i += 1) { A[i] = A[i] + 1; }
      | ^~~
left_before_the_next_turn.c:7:40: help: this line left A[0:4] in an earlier turn: write it behind the loop, or enter A[0:4] in each turn
    7 | #pragma omp target exit data map(from: A)
      |                                        ^
left_before_the_next_turn.c:7:1: help: this change is accepted
--- left_before_the_next_turn.c
+++ left_before_the_next_turn.c
@@ -7 +6,0 @@
-#pragma omp target exit data map(from: A)
@@ -8,0 +8 @@
+#pragma omp target exit data map(from: A)
[1]
$ ompc explain update_alone.c
update_alone.c:3:30: error: `target update` copies A[0:4], which is not on device 0 [E503]
    3 | #pragma omp target update to(A)
      |                              ^
update_alone.c:3:30: note: nothing before has entered A[0] on device 0
update_alone.c:3:1: help: enter it before, as by `#pragma omp target enter data map(to: A[0:4])`
    3 | #pragma omp target update to(A)
      | ^~~~~~~~~~~~~~~~~~~~~~~~~~~~~~~
update_alone.c:3:1: help: this change is accepted
--- update_alone.c
+++ update_alone.c
@@ -2,0 +3 @@
+#pragma omp target enter data map(to: A)
@@ -3,0 +5 @@
+#pragma omp target exit data map(release: A)
[1]
$ ompc explain updated_on_another_device.c
updated_on_another_device.c:4:30: error: `target update` copies A[0:4], which is not on device 0 [E503]
    4 | #pragma omp target update to(A)
      |                              ^
updated_on_another_device.c:4:30: note: nothing before has entered A[0] on device 0
updated_on_another_device.c:3:39: note: A[0:4] is on device 2 since it was entered here
    3 | #pragma omp target enter data map(to: A) device(2)
      |                                       ^
updated_on_another_device.c:4:30: help: write `device(2)` on this line: A[0:4] is present there
    4 | #pragma omp target update to(A)
      |                              ^
updated_on_another_device.c:4:1: help: enter it before, as by `#pragma omp target enter data map(to: A[0:4])`
    4 | #pragma omp target update to(A)
      | ^~~~~~~~~~~~~~~~~~~~~~~~~~~~~~~
updated_on_another_device.c:4:1: help: this change is accepted
--- updated_on_another_device.c
+++ updated_on_another_device.c
@@ -4 +4 @@
-#pragma omp target update to(A)
+#pragma omp target update to(A) device(2)
[1]
$ ompc explain not_mapped.c
not_mapped.c:4:3: error: the target writes A[2], which no map item of it has [E504]
    4 | { A[2] = 1; }
      |   ^~~~
not_mapped.c:3:32: note: `map(tofrom: A[0:2])` maps no more than A[0:2] to the device
    3 | #pragma omp target map(tofrom: A[0:2])
      |                                ^~~~~~
not_mapped.c:3:32: help: widen the section here to A[0:3]
not_mapped.c:3:1: help: this change is accepted
--- not_mapped.c
+++ not_mapped.c
@@ -3 +3 @@
-#pragma omp target map(tofrom: A[0:2])
+#pragma omp target map(tofrom: A[0:3])
[1]
$ ompc explain both_one_short.c
both_one_short.c:6:39: error: the target writes A[7], which no map item of it has (in the turn i = 7) [E504]
    6 | for (uint64_t i = 0; i < 8; i += 1) { A[i] = i; }
      |                                       ^~~~
both_one_short.c:5:32: note: `map(tofrom: A[0:7])` maps no more than A[0:7] to the device
    5 | #pragma omp target map(tofrom: A[0:7])
      |                                ^~~~~~
both_one_short.c:5:32: help: widen the section here to A[0:8]
both_one_short.c:3:37: note: A[0:7] is on device 0 since it was entered here
    3 | #pragma omp target data map(tofrom: A[0:7])
      |                                     ^~~~~~
both_one_short.c:3:37: help: widen the section here to A[0:8] too
both_one_short.c:3:1: help: this change is accepted
--- both_one_short.c
+++ both_one_short.c
@@ -3 +3 @@
-#pragma omp target data map(tofrom: A[0:7])
+#pragma omp target data map(tofrom: A[0:8])
@@ -5 +5 @@
-#pragma omp target map(tofrom: A[0:7])
+#pragma omp target map(tofrom: A[0:8])
[1]
$ ompc explain present_alone.c
present_alone.c:3:37: error: `map(present, to: A[0:4])` of the target says that A[0:4] is present, and it is not on device 0 [E509]
    3 | #pragma omp target map(present, to: A)
      |                                     ^
present_alone.c:3:37: note: nothing before has entered A[0] on device 0
present_alone.c:3:1: help: enter it before, as by `#pragma omp target enter data map(to: A[0:4])`
    3 | #pragma omp target map(present, to: A)
      | ^~~~~~~~~~~~~~~~~~~~~~~~~~~~~~~~~~~~~~
present_alone.c:3:1: help: this change is accepted
--- present_alone.c
+++ present_alone.c
@@ -2,0 +3 @@
+#pragma omp target enter data map(to: A)
@@ -4,0 +6 @@
+#pragma omp target exit data map(release: A)
[1]
$ ompc explain present_update_alone.c
present_update_alone.c:3:39: error: `to(present: A[0:4])` of `target update` says that A[0:4] is present, and it is not on device 0 [E509]
    3 | #pragma omp target update to(present: A)
      |                                       ^
present_update_alone.c:3:39: note: nothing before has entered A[0] on device 0
present_update_alone.c:3:1: help: enter it before, as by `#pragma omp target enter data map(to: A[0:4])`
    3 | #pragma omp target update to(present: A)
      | ^~~~~~~~~~~~~~~~~~~~~~~~~~~~~~~~~~~~~~~~
present_update_alone.c:3:1: help: this change is accepted
--- present_update_alone.c
+++ present_update_alone.c
@@ -2,0 +3 @@
+#pragma omp target enter data map(to: A)
@@ -3,0 +5 @@
+#pragma omp target exit data map(release: A)
[1]

# cells that are not current, with the last item that made them so
$ ompc explain mapped_to_only.c
mapped_to_only.c:6:45: error: the host reads A[0], whose last value is on device 0: nothing has copied it to the host since (in the turn i = 0) [E506]
    6 | for (uint64_t i = 0; i < 4; i += 1) { print(A[i]); }
      |                                             ^~~~
mapped_to_only.c:5:39: note: A[0] is written here, on device 0 (in the turn i = 0)
    5 | for (uint64_t i = 0; i < 4; i += 1) { A[i] = A[i] * 2 + 1; }
      |                                       ^~~~
mapped_to_only.c:4:28: note: `map(to: A[0:4])` removes A[0] from device 0 here without copying it to the host
    4 | #pragma omp target map(to: A[0:4])
      |                            ^~~~~~
mapped_to_only.c:4:28: help: write `tofrom` in place of `to` here, which copies it to the host
mapped_to_only.c:4:1: help: this change is accepted
--- mapped_to_only.c
+++ mapped_to_only.c
@@ -4 +4 @@
-#pragma omp target map(to: A[0:4])
+#pragma omp target map(tofrom: A[0:4])
[1]
$ ompc explain stale_part.c
stale_part.c:8:7: error: the host reads A[2], whose last value is on device 0: nothing has copied it to the host since [E506]
    8 | print(A[2]);
      |       ^~~~
stale_part.c:6:39: note: A[2] is written here, on device 0 (in the turn i = 2)
    6 | for (uint64_t i = 0; i < 4; i += 1) { A[i] = i + 5; }
      |                                       ^~~~
stale_part.c:7:32: note: `from(A[0:2])` does not have A[2]
    7 | #pragma omp target update from(A[0:2])
      |                                ^~~~~~
stale_part.c:8:7: help: write `#pragma omp target update from(A[2:2])` before this
    8 | print(A[2]);
      |       ^~~~
stale_part.c:8:1: help: this change is accepted
--- stale_part.c
+++ stale_part.c
@@ -7,0 +8 @@
+#pragma omp target update from(A)
[1]
$ ompc explain stays_on_the_device.c
stays_on_the_device.c:7:7: error: the host reads A[0], whose last value is on device 0: nothing has copied it to the host since [E506]
    7 | print(A[0]);
      |       ^~~~
stays_on_the_device.c:6:39: note: A[0] is written here, on device 0 (in the turn i = 0)
    6 | for (uint64_t i = 0; i < 4; i += 1) { A[i] = i; }
      |                                       ^~~~
stays_on_the_device.c:5:30: note: `map(from: A[0:4])` copies nothing to the host here, since A[0:4] was on device 0 before
    5 | #pragma omp target map(from: A)
      |                              ^
stays_on_the_device.c:3:33: note: A[0:4] is on device 0 since it was entered here
    3 | #pragma omp target data map(to: A)
      |                                 ^
stays_on_the_device.c:5:30: help: write `always, from` in place of `from` here, which copies it to the host each time
    5 | #pragma omp target map(from: A)
      |                              ^
stays_on_the_device.c:7:7: help: write `#pragma omp target update from(A)` before this
    7 | print(A[0]);
      |       ^~~~
stays_on_the_device.c:7:1: help: this change is accepted
--- stays_on_the_device.c
+++ stays_on_the_device.c
@@ -6,0 +7 @@
+#pragma omp target update from(A)
[1]
$ ompc explain entered_twice.c
entered_twice.c:8:7: error: the host reads A[0], whose last value is on device 0: nothing has copied it to the host since [E506]
    8 | print(A[0]);
      |       ^~~~
entered_twice.c:6:39: note: A[0] is written here, on device 0 (in the turn i = 0)
    6 | for (uint64_t i = 0; i < 4; i += 1) { A[i] = i; }
      |                                       ^~~~
entered_twice.c:7:40: note: `map(from: A[0:4])` copies nothing to the host here: A[0:4] was entered 2 times, and left once
    7 | #pragma omp target exit data map(from: A)
      |                                        ^
entered_twice.c:3:39: note: A[0:4] is on device 0 since it was entered here
    3 | #pragma omp target enter data map(to: A)
      |                                       ^
entered_twice.c:4:39: note: A[0:4] was entered once more here
    4 | #pragma omp target enter data map(to: A)
      |                                       ^
entered_twice.c:8:7: help: write `#pragma omp target update from(A)` before this
    8 | print(A[0]);
      |       ^~~~
entered_twice.c:8:1: help: this change is accepted
--- entered_twice.c
+++ entered_twice.c
@@ -7,0 +8 @@
+#pragma omp target update from(A)
[1]
$ ompc explain written_or_not_and_read.c
written_or_not_and_read.c:6:7: error: the host reads A[0], which was copied to the host from device 0, where it was not current itself [E506]
    6 | print(A[0]);
      |       ^~~~
written_or_not_and_read.c:4:30: note: `map(from: A[0:2])` copies A[0] from device 0 to the host here, whatever it is there
    4 | #pragma omp target map(from: A)
      |                              ^
written_or_not_and_read.c:4:30: note: `map(from: A[0:2])` creates A[0] on device 0 here, and copies nothing to it
written_or_not_and_read.c:5:12: note: A[0] is written here, on device 0, only under a condition
    5 | { if (s) { A[0] = 1; A[1] = 2; } }
      |            ^~~~
written_or_not_and_read.c:4:30: help: write `tofrom` in place of `from` here, which copies A[0] from the host, or write A[0] on the device before it is read
    4 | #pragma omp target map(from: A)
      |                              ^
written_or_not_and_read.c:4:1: help: this change is accepted
--- written_or_not_and_read.c
+++ written_or_not_and_read.c
@@ -4 +4 @@
-#pragma omp target map(from: A)
+#pragma omp target map(tofrom: A)
[1]
$ ompc explain written_at_some_cell.c
written_at_some_cell.c:7:7: error: the host reads A[2], which was copied to the host from device 0, where it was not current itself [E506]
    7 | print(A[2]);
      |       ^~~~
written_at_some_cell.c:5:30: note: `map(from: A[0:4])` copies A[2] from device 0 to the host here, whatever it is there
    5 | #pragma omp target map(from: A)
      |                              ^
written_at_some_cell.c:5:30: note: `map(from: A[0:4])` creates A[2] on device 0 here, and copies nothing to it
written_at_some_cell.c:6:3: note: A[2] is written here, on device 0, only where the subscript is that of this cell
    6 | { A[s & 3] = 1; }
      |   ^~~~~~~~
written_at_some_cell.c:5:30: help: write `tofrom` in place of `from` here, which copies A[2] from the host, or write A[2] on the device before it is read
    5 | #pragma omp target map(from: A)
      |                              ^
written_at_some_cell.c:5:1: help: this change is accepted
--- written_at_some_cell.c
+++ written_at_some_cell.c
@@ -5 +5 @@
-#pragma omp target map(from: A)
+#pragma omp target map(tofrom: A)
[1]
$ ompc explain stale_on_the_device.c
stale_on_the_device.c:7:46: error: the target reads A[0], whose last value is on the host: nothing has copied it to device 0 since (in the turn i = 0) [E507]
    7 | for (uint64_t i = 0; i < 2; i += 1) { B[i] = A[i] + 1; }
      |                                              ^~~~
stale_on_the_device.c:5:1: note: A[0] is written here, on the host
    5 | A[0] = 5;
      | ^~~~
stale_on_the_device.c:6:28: note: `map(to: A[0:2])` copies nothing here, since A[0:2] is on device 0 already
    6 | #pragma omp target map(to: A) map(from: B)
      |                            ^
stale_on_the_device.c:4:39: note: A[0:2] is on device 0 since it was entered here
    4 | #pragma omp target enter data map(to: A)
      |                                       ^
stale_on_the_device.c:6:1: help: write `#pragma omp target update to(A[0:1])` before this, or `map(always, to: A[0:2])` in it
    6 | #pragma omp target map(to: A) map(from: B)
      | ^~~~~~~~~~~~~~~~~~~~~~~~~~~~~~~~~~~~~~~~~~
stale_on_the_device.c:6:1: help: this change is accepted
--- stale_on_the_device.c
+++ stale_on_the_device.c
@@ -5,0 +6 @@
+#pragma omp target update to(A[0:1])
[1]
$ ompc explain stale_on_another_device.c
stale_on_another_device.c:8:10: error: the target reads A[0], whose last value is on device 0: nothing has copied it to device 1 since [E507]
    8 | { A[1] = A[0]; }
      |          ^~~~
stale_on_another_device.c:6:3: note: A[0] is written here, on device 0
    6 | { A[0] = 7; }
      |   ^~~~
stale_on_another_device.c:8:1: note: the implicit `map(tofrom: A[0:2])` copies nothing here, since A[0:2] is on device 1 already
    8 | { A[1] = A[0]; }
      | ^
stale_on_another_device.c:4:39: note: A[0:2] is on device 1 since it was entered here
    4 | #pragma omp target enter data map(to: A) device(1)
      |                                       ^
stale_on_another_device.c:7:1: help: write `#pragma omp target update from(A[0:1])` before this
    7 | #pragma omp target device(1)
      | ^~~~~~~~~~~~~~~~~~~~~~~~~~~~
stale_on_another_device.c:7:1: help: then write `#pragma omp target update to(A[0:1]) device(1)` before this
stale_on_another_device.c:7:1: help: this change is accepted
--- stale_on_another_device.c
+++ stale_on_another_device.c
@@ -6,0 +7,2 @@
+#pragma omp target update from(A[0:1])
+#pragma omp target update to(A[0:1]) device(1)
[1]

# last values that were copied over, or may have been written over
$ ompc explain updated_the_wrong_way.c
updated_the_wrong_way.c:7:7: error: the host reads A[1], whose last value was on device 0, and `to(A[0:4])` at line 6 copied over it what the host had [E506]
    7 | print(A[1]);
      |       ^~~~
updated_the_wrong_way.c:5:39: note: A[1] is written here, on device 0 (in the turn i = 1)
    5 | for (uint64_t i = 0; i < 4; i += 1) { A[i] = i + 1; }
      |                                       ^~~~
updated_the_wrong_way.c:6:30: note: `to(A[0:4])` copies A[1] from the host to device 0 here, whatever it is there
    6 | #pragma omp target update to(A)
      |                              ^
updated_the_wrong_way.c:6:30: help: write `from` in place of `to` here, which copies it to the host
updated_the_wrong_way.c:6:1: help: this change is accepted
--- updated_the_wrong_way.c
+++ updated_the_wrong_way.c
@@ -6 +6 @@
-#pragma omp target update to(A)
+#pragma omp target update from(A)
[1]
$ ompc explain host_write_not_sent.c
host_write_not_sent.c:11:7: error: the host reads A[0], whose last value was on the host, and `map(tofrom: A[0:8])` at line 10 copied over it what device 0 had [E506]
   11 | print(A[0]);
      |       ^~~~
host_write_not_sent.c:3:37: note: `map(tofrom: A[0:8])` copies A[0] from device 0 to the host at the end of its block, whatever it is there
    3 | #pragma omp target data map(tofrom: A)
      |                                     ^
host_write_not_sent.c:8:1: note: A[0] is written here, on the host
    8 | A[0] = A[6];
      | ^~~~
host_write_not_sent.c:9:27: help: write `#pragma omp target update to(A[0:1])` after this, which copies it to device 0
    9 | if (A[0] > 3) { A[0] = 3; }
      |                           ^
host_write_not_sent.c:10:1: help: this change is accepted
--- host_write_not_sent.c
+++ host_write_not_sent.c
@@ -9,0 +10 @@
+#pragma omp target update to(A[0:1])
[1]
$ ompc explain copied_over_at_the_end.c
copied_over_at_the_end.c:8:7: error: the host reads A[1], whose last value was on the host, and `map(from: A[0:4])` at line 7 copied over it what device 0 had [E506]
    8 | print(A[1]);
      |       ^~~~
copied_over_at_the_end.c:3:35: note: `map(from: A[0:4])` copies A[1] from device 0 to the host at the end of its block, whatever it is there
    3 | #pragma omp target data map(from: A)
      |                                   ^
copied_over_at_the_end.c:6:39: note: A[1] is written here, on device 1 (in the turn i = 1)
    6 | for (uint64_t i = 0; i < 4; i += 1) { A[i] = i + 1; }
      |                                       ^~~~
copied_over_at_the_end.c:7:1: help: write `#pragma omp target update to(A)` before the end of this block, which copies it to device 0
    7 | }
      | ^
copied_over_at_the_end.c:3:1: help: this change is accepted
--- copied_over_at_the_end.c
+++ copied_over_at_the_end.c
@@ -3 +3 @@
-#pragma omp target data map(from: A)
+#pragma omp target data map(from: A) device(1)
[1]
$ ompc explain copied_over_and_entered_again.c
copied_over_and_entered_again.c:8:46: error: the target reads A[1], which was copied to device 0 from the host, where it was not current itself (in the turn i = 1) [E507]
    8 | for (uint64_t i = 0; i < 4; i += 1) { B[i] = A[i]; }
      |                                              ^~~~
copied_over_and_entered_again.c:7:28: note: `map(to: A[0:4])` copies A[1] from the host to device 0 here, whatever it is there
    7 | #pragma omp target map(to: A) map(from: B)
      |                            ^
copied_over_and_entered_again.c:6:40: note: `map(from: A[0:4])` copies A[1] from device 0 to the host here, whatever it is there
    6 | #pragma omp target exit data map(from: A)
      |                                        ^
copied_over_and_entered_again.c:5:1: note: A[1] is written here, on the host
    5 | A[1] = 5;
      | ^~~~
copied_over_and_entered_again.c:5:9: help: write `#pragma omp target update to(A[1:1])` after this, which copies it to device 0
    5 | A[1] = 5;
      |         ^
copied_over_and_entered_again.c:6:1: help: this change is accepted
--- copied_over_and_entered_again.c
+++ copied_over_and_entered_again.c
@@ -5,0 +6 @@
+#pragma omp target update to(A[1:1])
[1]
$ ompc explain written_or_not_on_the_host.c
written_or_not_on_the_host.c:10:7: error: the host reads A[1], whose last value was on device 0, and which the host at line 8 may have written on the host since [E506]
   10 | print(A[1]);
      |       ^~~~
written_or_not_on_the_host.c:7:39: note: A[1] is written here, on device 0 (in the turn i = 1)
    7 | for (uint64_t i = 0; i < 4; i += 1) { A[i] = i; }
      |                                       ^~~~
written_or_not_on_the_host.c:8:10: note: A[1] is written here, on the host, only under a condition
    8 | if (s) { A[1] = 7; }
      |          ^~~~
written_or_not_on_the_host.c:8:1: help: write `#pragma omp target update from(A)` before this, which copies it to the host
    8 | if (s) { A[1] = 7; }
      | ^~
written_or_not_on_the_host.c:8:1: help: this change is accepted
--- written_or_not_on_the_host.c
+++ written_or_not_on_the_host.c
@@ -7,0 +8 @@
+#pragma omp target update from(A)
[1]

# turns that may run in any order, of which one writes what another one reads or writes
$ ompc explain next_cell.c
next_cell.c:3:1: error: two turns of this loop, which may run in any order, meet on A[1] [E510]
    3 | #pragma omp target parallel for map(tofrom: A)
      | ^~~~~~~~~~~~~~~~~~~~~~~~~~~~~~~~~~~~~~~~~~~~~~
next_cell.c:4:39: note: A[1] is written here (in the turn i = 0)
    4 | for (uint64_t i = 0; i < 3; i += 1) { A[i + 1] = A[i]; }
      |                                       ^~~~~~~~
next_cell.c:4:50: note: A[1] is read here (in the turn i = 1)
    4 | for (uint64_t i = 0; i < 3; i += 1) { A[i + 1] = A[i]; }
      |                                                  ^~~~
next_cell.c:4:39: help: let this write to another array: then other turns read what A has before the loop
    4 | for (uint64_t i = 0; i < 3; i += 1) { A[i + 1] = A[i]; }
      |                                       ^~~~~~~~
next_cell.c:3:1: help: as a `target` alone it has its turns in order
    3 | #pragma omp target parallel for map(tofrom: A)
      | ^~~~~~~~~~~~~~~~~~~~~~~~~~~~~~~~~~~~~~~~~~~~~~
next_cell.c:3:1: help: this change is accepted
--- next_cell.c
+++ next_cell.c
@@ -3 +3 @@
-#pragma omp target parallel for map(tofrom: A)
+#pragma omp target map(tofrom: A)
[1]
$ ompc explain one_cell_of_two_turns.c
one_cell_of_two_turns.c:3:1: error: two turns of these loops, which may run in any order, meet on A[0] [E510]
    3 | #pragma omp target teams distribute parallel for simd collapse(2) num_teams(2) map(from: A) schedule(static)
      | ^~~~~~~~~~~~~~~~~~~~~~~~~~~~~~~~~~~~~~~~~~~~~~~~~~~~~~~~~~~~~~~~~~~~~~~~~~~~~~~~~~~~~~~~~~~~~~~~~~~~~~~~~~~~
one_cell_of_two_turns.c:5:41: note: A[0] is written here (in the turn i = 0, j = 0)
    5 |   for (uint64_t j = 0; j < 2; j += 1) { A[i] = j; }
      |                                         ^~~~
one_cell_of_two_turns.c:5:41: note: A[0] is written here (in the turn i = 0, j = 1)
one_cell_of_two_turns.c:3:1: help: with a smaller `collapse`, or with none, fewer loops are in any order
    3 | #pragma omp target teams distribute parallel for simd collapse(2) num_teams(2) map(from: A) schedule(static)
      | ^~~~~~~~~~~~~~~~~~~~~~~~~~~~~~~~~~~~~~~~~~~~~~~~~~~~~~~~~~~~~~~~~~~~~~~~~~~~~~~~~~~~~~~~~~~~~~~~~~~~~~~~~~~~
one_cell_of_two_turns.c:3:1: help: as a `target` alone it has its turns in order
one_cell_of_two_turns.c:3:1: help: this change is accepted
--- one_cell_of_two_turns.c
+++ one_cell_of_two_turns.c
@@ -3 +3 @@
-#pragma omp target teams distribute parallel for simd collapse(2) num_teams(2) map(from: A) schedule(static)
+#pragma omp target teams distribute parallel for simd num_teams(2) map(from: A) schedule(static)
[1]

# items with no order between them
$ ompc explain depends_overlap.c
depends_overlap.c:5:53: error: `depend(in: A[2:4])` overlaps `depend(out: A[0:4])` of the target at line 3 in A[2], and is not the same section [E505]
    5 | #pragma omp target map(tofrom: A) nowait depend(in: A[2:4])
      |                                                     ^~~~~~
depends_overlap.c:3:54: note: `depend(out: A[0:4])` stands here
    3 | #pragma omp target map(tofrom: A) nowait depend(out: A[0:4])
      |                                                      ^~~~~~
depends_overlap.c:5:53: help: name the same section in both, as A[0:6]: tasks are ordered by equal sections alone
    5 | #pragma omp target map(tofrom: A) nowait depend(in: A[2:4])
      |                                                     ^~~~~~
depends_overlap.c:3:1: help: this change is accepted
--- depends_overlap.c
+++ depends_overlap.c
@@ -3 +3 @@
-#pragma omp target map(tofrom: A) nowait depend(out: A[0:4])
+#pragma omp target map(tofrom: A) nowait depend(out: A[0:6])
@@ -5 +5 @@
-#pragma omp target map(tofrom: A) nowait depend(in: A[2:4])
+#pragma omp target map(tofrom: A) nowait depend(in: A[0:6])
[1]
$ ompc explain broken_chain.c
broken_chain.c:10:3: error: the target at line 9 writes C[0] on device 0, and the target at line 5 writes C[0] on device 0, with no order between them [E508]
   10 | { C[0] = C[0] + 5; }
      |   ^~~~
broken_chain.c:6:3: note: the target writes C[0] on device 0 here
    6 | { C[0] = 1; }
      |   ^~~~
broken_chain.c:5:1: note: this is deferred by `nowait`: what stands after it does not wait for it
    5 | #pragma omp target map(tofrom: C) nowait depend(out: A)
      | ^~~~~~~~~~~~~~~~~~~~~~~~~~~~~~~~~~~~~~~~~~~~~~~~~~~~~~~
broken_chain.c:9:1: note: no `taskwait` between the two waits for it, and their `depend` clauses name no section in common
    9 | #pragma omp target map(tofrom: C) nowait depend(in: B)
      | ^~~~~~~~~~~~~~~~~~~~~~~~~~~~~~~~~~~~~~~~~~~~~~~~~~~~~~
broken_chain.c:9:1: help: write `#pragma omp taskwait` before this, or `depend(inout: C)` on both
broken_chain.c:5:1: help: this change is accepted
--- broken_chain.c
+++ broken_chain.c
@@ -5 +5 @@
-#pragma omp target map(tofrom: C) nowait depend(out: A)
+#pragma omp target map(tofrom: C) nowait depend(out: A) depend(inout: C)
@@ -9 +9 @@
-#pragma omp target map(tofrom: C) nowait depend(in: B)
+#pragma omp target map(tofrom: C) nowait depend(in: B) depend(inout: C)
[1]
$ ompc explain readers_create_both.c
readers_create_both.c:7:28: error: the target at line 7 copies A[0] from the host to device 0, and the target at line 5 reads A[0] on device 0, with no order between them [E508]
    7 | #pragma omp target map(to: A) map(from: C) nowait
      |                            ^
readers_create_both.c:6:46: note: the target reads A[0] on device 0 here (in the turn i = 0)
    6 | for (uint64_t i = 0; i < 4; i += 1) { B[i] = A[i] + 1; }
      |                                              ^~~~
readers_create_both.c:5:1: note: this is deferred by `nowait`: what stands after it does not wait for it
    5 | #pragma omp target map(to: A) map(from: B) nowait
      | ^~~~~~~~~~~~~~~~~~~~~~~~~~~~~~~~~~~~~~~~~~~~~~~~~
readers_create_both.c:7:1: note: no `taskwait` between the two waits for it, and neither has a `depend` clause
    7 | #pragma omp target map(to: A) map(from: C) nowait
      | ^~~~~~~~~~~~~~~~~~~~~~~~~~~~~~~~~~~~~~~~~~~~~~~~~
readers_create_both.c:7:1: help: write `#pragma omp taskwait` before this, or `depend(inout: A)` on both
readers_create_both.c:5:1: help: this change is accepted
--- readers_create_both.c
+++ readers_create_both.c
@@ -5 +5 @@
-#pragma omp target map(to: A) map(from: B) nowait
+#pragma omp target map(to: A) map(from: B) nowait depend(in: A)
@@ -7 +7 @@
-#pragma omp target map(to: A) map(from: C) nowait
+#pragma omp target map(to: A) map(from: C) nowait depend(inout: A)
[1]
$ ompc explain host_beside_a_copy_in.c
host_beside_a_copy_in.c:5:24: error: the host at line 5 writes A[5] on the host, and `target update` at line 4 copies A[5] from the host to device 0, with no order between them [E508]
    5 | A[1] = 1; print(A[6]); A[5] = 1;
      |                        ^~~~
host_beside_a_copy_in.c:4:30: note: `target update` copies A[5] from the host to device 0 here
    4 | #pragma omp target update to(A[4:4]) nowait
      |                              ^~~~~~
host_beside_a_copy_in.c:4:1: note: this is deferred by `nowait`: what stands after it does not wait for it
    4 | #pragma omp target update to(A[4:4]) nowait
      | ^~~~~~~~~~~~~~~~~~~~~~~~~~~~~~~~~~~~~~~~~~~
host_beside_a_copy_in.c:5:1: note: no `taskwait` between the two waits for it
    5 | A[1] = 1; print(A[6]); A[5] = 1;
      | ^~~~
host_beside_a_copy_in.c:5:1: help: write `#pragma omp taskwait` before this
host_beside_a_copy_in.c:5:1: help: this change is accepted
--- host_beside_a_copy_in.c
+++ host_beside_a_copy_in.c
@@ -4,0 +5 @@
+#pragma omp taskwait
[1]
$ ompc explain exit_before_the_wait.c
exit_before_the_wait.c:8:40: error: `target exit data` at line 8 copies A[0] from device 0 to the host, and the target at line 4 writes A[0] on device 0, with no order between them [E508]
    8 | #pragma omp target exit data map(from: A)
      |                                        ^
exit_before_the_wait.c:5:39: note: the target writes A[0] on device 0 here (in the turn i = 0)
    5 | for (uint64_t i = 0; i < 4; i += 1) { A[i] = i + 1; }
      |                                       ^~~~
exit_before_the_wait.c:4:1: note: this is deferred by `nowait`: what stands after it does not wait for it
    4 | #pragma omp target map(tofrom: A[0:4]) nowait
      | ^~~~~~~~~~~~~~~~~~~~~~~~~~~~~~~~~~~~~~~~~~~~~
exit_before_the_wait.c:8:1: note: no `taskwait` between the two waits for it, and neither has a `depend` clause
    8 | #pragma omp target exit data map(from: A)
      | ^~~~~~~~~~~~~~~~~~~~~~~~~~~~~~~~~~~~~~~~~
exit_before_the_wait.c:8:1: help: write `#pragma omp taskwait` before this, or `depend(inout: A)` on both
exit_before_the_wait.c:10:32: error: `target update` copies A[0:8], which is not on device 0 [E503]
   10 | #pragma omp target update from(A)
      |                                ^
exit_before_the_wait.c:8:40: note: A[0] was removed from device 0 here
    8 | #pragma omp target exit data map(from: A)
      |                                        ^
exit_before_the_wait.c:10:1: help: enter it before, as by `#pragma omp target enter data map(to: A[0:8])`
   10 | #pragma omp target update from(A)
      | ^~~~~~~~~~~~~~~~~~~~~~~~~~~~~~~~~
exit_before_the_wait.c:4:1: help: this change is accepted
--- exit_before_the_wait.c
+++ exit_before_the_wait.c
@@ -3,0 +4 @@
+#pragma omp target enter data map(to: A)
@@ -7,0 +9 @@
+#pragma omp taskwait
@@ -11,0 +14 @@
+#pragma omp target exit data map(release: A)
[1]
$ ompc explain several_cells.c
several_cells.c:8:16: error: the target at line 7 writes A[5] on device 0, and the target at line 5 reads A[5] on device 0, with no order between them [E508]
    8 | { B[0] = A[7]; A[5] = 1; }
      |                ^~~~
several_cells.c:6:30: note: the target reads A[5] on device 0 here
    6 | { B[0] = 1; A[7] = 1; B[1] = A[5]; }
      |                              ^~~~
several_cells.c:5:1: note: this is deferred by `nowait`: what stands after it does not wait for it
    5 | #pragma omp target nowait
      | ^~~~~~~~~~~~~~~~~~~~~~~~~
several_cells.c:7:1: note: no `taskwait` between the two waits for it, and neither has a `depend` clause
    7 | #pragma omp target nowait
      | ^~~~~~~~~~~~~~~~~~~~~~~~~
several_cells.c:7:1: help: write `#pragma omp taskwait` before this, or `depend(inout: A)` on both
several_cells.c:5:1: help: this change is accepted
--- several_cells.c
+++ several_cells.c
@@ -5 +5 @@
-#pragma omp target nowait
+#pragma omp target nowait depend(inout: A)
@@ -7 +7 @@
-#pragma omp target nowait
+#pragma omp target nowait depend(inout: A)
[1]
$ ompc explain waits_for_another_array.c
waits_for_another_array.c:9:7: error: the host at line 9 reads B[0] on the host, and the target at line 6 copies B[0] from device 0 to the host, with no order between them [E508]
    9 | print(B[0]);
      |       ^~~~
waits_for_another_array.c:6:30: note: the target copies B[0] from device 0 to the host here
    6 | #pragma omp target map(from: B) nowait depend(out: B)
      |                              ^
waits_for_another_array.c:6:1: note: this is deferred by `nowait`: what stands after it does not wait for it
    6 | #pragma omp target map(from: B) nowait depend(out: B)
      | ^~~~~~~~~~~~~~~~~~~~~~~~~~~~~~~~~~~~~~~~~~~~~~~~~~~~~
waits_for_another_array.c:8:1: note: this `taskwait` waits for `depend(in: A[0:4])` alone, and not for the target at line 6
    8 | #pragma omp taskwait depend(in: A)
      | ^~~~~~~~~~~~~~~~~~~~~~~~~~~~~~~~~~
waits_for_another_array.c:9:1: help: write `#pragma omp taskwait` before this
    9 | print(B[0]);
      | ^~~~~
waits_for_another_array.c:9:1: help: this change is accepted
--- waits_for_another_array.c
+++ waits_for_another_array.c
@@ -8,0 +9 @@
+#pragma omp taskwait
[1]
$ ompc explain no_wait_before_the_end.c
no_wait_before_the_end.c:3:37: error: the end of `target data` at line 7 copies A[0] from device 0 to the host, and the target at line 5 writes A[0] on device 0, with no order between them [E508]
    3 | #pragma omp target data map(tofrom: A)
      |                                     ^
no_wait_before_the_end.c:6:39: note: the target writes A[0] on device 0 here (in the turn i = 0)
    6 | for (uint64_t i = 0; i < 4; i += 1) { A[i] = i + 1; }
      |                                       ^~~~
no_wait_before_the_end.c:5:1: note: this is deferred by `nowait`: what stands after it does not wait for it
    5 | #pragma omp target nowait
      | ^~~~~~~~~~~~~~~~~~~~~~~~~
no_wait_before_the_end.c:7:1: note: no `taskwait` between the two waits for it
    7 | }
      | ^
no_wait_before_the_end.c:7:1: help: write `#pragma omp taskwait` before the end of this block
no_wait_before_the_end.c:7:1: help: this change is accepted
--- no_wait_before_the_end.c
+++ no_wait_before_the_end.c
@@ -6,0 +7 @@
+#pragma omp taskwait
[1]
$ ompc explain reader_without_depend.c
reader_without_depend.c:9:46: error: the target at line 8 reads A[0] on device 0, and the target at line 6 writes A[0] on device 0, with no order between them (in the turn i = 0) [E508]
    9 | for (uint64_t i = 0; i < 2; i += 1) { B[i] = A[i]; }
      |                                              ^~~~
reader_without_depend.c:7:39: note: the target writes A[0] on device 0 here (in the turn i = 0)
    7 | for (uint64_t i = 0; i < 2; i += 1) { A[i] = i; }
      |                                       ^~~~
reader_without_depend.c:6:1: note: this is deferred by `nowait`: what stands after it does not wait for it
    6 | #pragma omp target nowait depend(out: A[0:2])
      | ^~~~~~~~~~~~~~~~~~~~~~~~~~~~~~~~~~~~~~~~~~~~~
reader_without_depend.c:8:1: note: no `taskwait` between the two waits for it, and the target at line 8 has no `depend` clause
    8 | #pragma omp target nowait
      | ^~~~~~~~~~~~~~~~~~~~~~~~~
reader_without_depend.c:8:1: help: write `#pragma omp taskwait` before this, or `depend(in: A[0:2])` on it
reader_without_depend.c:8:1: help: this change is accepted
--- reader_without_depend.c
+++ reader_without_depend.c
@@ -8 +8 @@
-#pragma omp target nowait
+#pragma omp target nowait depend(in: A[0:2])
[1]
$ ompc explain other_half_named.c
other_half_named.c:8:39: error: the target at line 7 writes A[2] on device 0, and the target at line 5 writes A[2] on device 0, with no order between them (in the turn i = 2) [E508]
    8 | for (uint64_t i = 2; i < 4; i += 1) { A[i] = A[i] * 5; }
      |                                       ^~~~
other_half_named.c:6:39: note: the target writes A[2] on device 0 here (in the turn i = 2)
    6 | for (uint64_t i = 2; i < 4; i += 1) { A[i] = i; }
      |                                       ^~~~
other_half_named.c:5:1: note: this is deferred by `nowait`: what stands after it does not wait for it
    5 | #pragma omp target nowait depend(out: A[2:2])
      | ^~~~~~~~~~~~~~~~~~~~~~~~~~~~~~~~~~~~~~~~~~~~~
other_half_named.c:7:1: note: no `taskwait` between the two waits for it, and their `depend` clauses name no section in common
    7 | #pragma omp target nowait depend(inout: A[0:2])
      | ^~~~~~~~~~~~~~~~~~~~~~~~~~~~~~~~~~~~~~~~~~~~~~~
other_half_named.c:7:1: help: write `#pragma omp taskwait` before this, or `depend(inout: A[2:2])` on it
other_half_named.c:7:1: help: this change is accepted
--- other_half_named.c
+++ other_half_named.c
@@ -7 +7 @@
-#pragma omp target nowait depend(inout: A[0:2])
+#pragma omp target nowait depend(inout: A[2:2])
[1]

# faults that do not follow from one before: of range, of depend items, conflicts and the item behind them that is refused by itself
$ ompc explain four_faults_of_range.c
four_faults_of_range.c:3:39: error: the subscript of A is 4, and A has 4 cells (in the turn i = 4) [E301]
    3 | for (uint64_t i = 0; i < 5; i += 1) { A[i] = i; }
      |                                       ^~~~
four_faults_of_range.c:1:10: note: A has the cells 0 to 3
    1 | uint64_t A[4];
      |          ^~~~
four_faults_of_range.c:3:39: help: put it under an `if` that the values of the loops decide, or change the bounds of the loop
    3 | for (uint64_t i = 0; i < 5; i += 1) { A[i] = i; }
      |                                       ^~~~
four_faults_of_range.c:5:3: error: the subscript of A is 4, and A has 4 cells [E301]
    5 | { A[4] = 1; }
      |   ^~~~
four_faults_of_range.c:1:10: note: A has the cells 0 to 3
    1 | uint64_t A[4];
      |          ^~~~
four_faults_of_range.c:5:3: help: put it under an `if` that the values of the loops decide, or change the bounds of the loop
    5 | { A[4] = 1; }
      |   ^~~~
four_faults_of_range.c:6:32: error: the section A[2:4] has the cells 2 to 5, and A has 4 cells [E302]
    6 | #pragma omp target map(tofrom: A[2:4])
      |                                ^~~~~~
four_faults_of_range.c:1:10: note: A has the cells 0 to 3
    1 | uint64_t A[4];
      |          ^~~~
four_faults_of_range.c:6:32: help: a section is FIRST:LENGTH; A[2:2] is what fits at most
    6 | #pragma omp target map(tofrom: A[2:4])
      |                                ^~~~~~
four_faults_of_range.c:10:3: error: the subscript of A is 4, and A has 4 cells (in the turn k = 4) [E301]
   10 | { A[k] = 1; }
      |   ^~~~
four_faults_of_range.c:1:10: note: A has the cells 0 to 3
    1 | uint64_t A[4];
      |          ^~~~
four_faults_of_range.c:10:3: help: put it under an `if` that the values of the loops decide, or change the bounds of the loop
   10 | { A[k] = 1; }
      |   ^~~~
[1]
$ ompc explain two_overlaps.c
two_overlaps.c:5:53: error: `depend(in: A[2:4])` overlaps `depend(out: A[0:4])` of the target at line 3 in A[2], and is not the same section [E505]
    5 | #pragma omp target map(tofrom: A) nowait depend(in: A[2:4])
      |                                                     ^~~~~~
two_overlaps.c:3:54: note: `depend(out: A[0:4])` stands here
    3 | #pragma omp target map(tofrom: A) nowait depend(out: A[0:4])
      |                                                      ^~~~~~
two_overlaps.c:5:53: help: name the same section in both, as A[0:6]: tasks are ordered by equal sections alone
    5 | #pragma omp target map(tofrom: A) nowait depend(in: A[2:4])
      |                                                     ^~~~~~
two_overlaps.c:7:53: error: `depend(in: A[3:4])` overlaps `depend(out: A[0:4])` of the target at line 3 in A[3], and is not the same section [E505]
    7 | #pragma omp target map(tofrom: A) nowait depend(in: A[3:4])
      |                                                     ^~~~~~
two_overlaps.c:3:54: note: `depend(out: A[0:4])` stands here
    3 | #pragma omp target map(tofrom: A) nowait depend(out: A[0:4])
      |                                                      ^~~~~~
two_overlaps.c:7:53: help: name the same section in both, as A[0:7]: tasks are ordered by equal sections alone
    7 | #pragma omp target map(tofrom: A) nowait depend(in: A[3:4])
      |                                                     ^~~~~~
two_overlaps.c:3:1: help: this change is accepted
--- two_overlaps.c
+++ two_overlaps.c
@@ -3 +3 @@
-#pragma omp target map(tofrom: A) nowait depend(out: A[0:4])
+#pragma omp target map(tofrom: A) nowait depend(out: A[0:6])
@@ -5 +5 @@
-#pragma omp target map(tofrom: A) nowait depend(in: A[2:4])
+#pragma omp target map(tofrom: A) nowait depend(inout: A[0:6])
@@ -7 +7 @@
-#pragma omp target map(tofrom: A) nowait depend(in: A[3:4])
+#pragma omp target map(tofrom: A) nowait depend(in: A[0:6])
[1]
$ ompc explain three_faults.c
three_faults.c:8:3: error: the target at line 7 writes A[0] on device 0, and the target at line 5 writes A[0] on device 0, with no order between them [E508]
    8 | { A[0] = A[0] + 1; }
      |   ^~~~
three_faults.c:6:3: note: the target writes A[0] on device 0 here
    6 | { A[0] = A[0] + 1; }
      |   ^~~~
three_faults.c:5:1: note: this is deferred by `nowait`: what stands after it does not wait for it
    5 | #pragma omp target map(tofrom: A) nowait
      | ^~~~~~~~~~~~~~~~~~~~~~~~~~~~~~~~~~~~~~~~
three_faults.c:7:1: note: no `taskwait` between the two waits for it, and neither has a `depend` clause
    7 | #pragma omp target map(tofrom: A) nowait
      | ^~~~~~~~~~~~~~~~~~~~~~~~~~~~~~~~~~~~~~~~
three_faults.c:7:1: help: write `#pragma omp taskwait` before this, or `depend(inout: A)` on both
three_faults.c:10:3: error: the target at line 9 writes A[0] on device 0, and the target at line 5 writes A[0] on device 0, with no order between them [E508]
   10 | { A[0] = A[0] + 1; C[0] = 1; }
      |   ^~~~
three_faults.c:6:3: note: the target writes A[0] on device 0 here
    6 | { A[0] = A[0] + 1; }
      |   ^~~~
three_faults.c:5:1: note: this is deferred by `nowait`: what stands after it does not wait for it
    5 | #pragma omp target map(tofrom: A) nowait
      | ^~~~~~~~~~~~~~~~~~~~~~~~~~~~~~~~~~~~~~~~
three_faults.c:9:1: note: no `taskwait` between the two waits for it, and neither has a `depend` clause
    9 | #pragma omp target map(tofrom: A) map(to: C) nowait
      | ^~~~~~~~~~~~~~~~~~~~~~~~~~~~~~~~~~~~~~~~~~~~~~~~~~~
three_faults.c:9:1: help: write `#pragma omp taskwait` before this, or `depend(inout: A)` on both
three_faults.c:12:7: error: the host reads C[0], whose last value is on device 0: nothing has copied it to the host since [E506]
   12 | print(C[0]);
      |       ^~~~
three_faults.c:10:20: note: C[0] is written here, on device 0
   10 | { A[0] = A[0] + 1; C[0] = 1; }
      |                    ^~~~
three_faults.c:9:43: note: `map(to: C[0:8])` removes C[0] from device 0 here without copying it to the host
    9 | #pragma omp target map(tofrom: A) map(to: C) nowait
      |                                           ^
three_faults.c:9:43: help: write `tofrom` in place of `to` here, which copies it to the host
three_faults.c:5:1: help: this change is accepted
--- three_faults.c
+++ three_faults.c
@@ -5 +5 @@
-#pragma omp target map(tofrom: A) nowait
+#pragma omp target map(tofrom: A) nowait depend(inout: A)
@@ -7 +7 @@
-#pragma omp target map(tofrom: A) nowait
+#pragma omp target map(tofrom: A) nowait depend(inout: A)
@@ -9 +9 @@
-#pragma omp target map(tofrom: A) map(to: C) nowait
+#pragma omp target map(tofrom: A, C) nowait depend(inout: A)
[1]
$ ompc explain eleven_faults.c
eleven_faults.c:4:3: error: the subscript of A is 4, and A has 4 cells [E301]
    4 | { A[4] = 1; }
      |   ^~~~
eleven_faults.c:1:10: note: A has the cells 0 to 3
    1 | uint64_t A[4];
      |          ^~~~
eleven_faults.c:4:3: help: put it under an `if` that the values of the loops decide, or change the bounds of the loop
    4 | { A[4] = 1; }
      |   ^~~~
eleven_faults.c:6:3: error: the subscript of A is 5, and A has 4 cells [E301]
    6 | { A[5] = 1; }
      |   ^~~~
eleven_faults.c:1:10: note: A has the cells 0 to 3
    1 | uint64_t A[4];
      |          ^~~~
eleven_faults.c:6:3: help: put it under an `if` that the values of the loops decide, or change the bounds of the loop
    6 | { A[5] = 1; }
      |   ^~~~
eleven_faults.c:8:3: error: the subscript of A is 6, and A has 4 cells [E301]
    8 | { A[6] = 1; }
      |   ^~~~
eleven_faults.c:1:10: note: A has the cells 0 to 3
    1 | uint64_t A[4];
      |          ^~~~
eleven_faults.c:8:3: help: put it under an `if` that the values of the loops decide, or change the bounds of the loop
    8 | { A[6] = 1; }
      |   ^~~~
eleven_faults.c:10:3: error: the subscript of A is 7, and A has 4 cells [E301]
   10 | { A[7] = 1; }
      |   ^~~~
eleven_faults.c:1:10: note: A has the cells 0 to 3
    1 | uint64_t A[4];
      |          ^~~~
eleven_faults.c:10:3: help: put it under an `if` that the values of the loops decide, or change the bounds of the loop
   10 | { A[7] = 1; }
      |   ^~~~
eleven_faults.c:12:3: error: the subscript of A is 8, and A has 4 cells [E301]
   12 | { A[8] = 1; }
      |   ^~~~
eleven_faults.c:1:10: note: A has the cells 0 to 3
    1 | uint64_t A[4];
      |          ^~~~
eleven_faults.c:12:3: help: put it under an `if` that the values of the loops decide, or change the bounds of the loop
   12 | { A[8] = 1; }
      |   ^~~~
eleven_faults.c:14:3: error: the subscript of A is 9, and A has 4 cells [E301]
   14 | { A[9] = 1; }
      |   ^~~~
eleven_faults.c:1:10: note: A has the cells 0 to 3
    1 | uint64_t A[4];
      |          ^~~~
eleven_faults.c:14:3: help: put it under an `if` that the values of the loops decide, or change the bounds of the loop
   14 | { A[9] = 1; }
      |   ^~~~
eleven_faults.c:16:3: error: the subscript of A is 10, and A has 4 cells [E301]
   16 | { A[10] = 1; }
      |   ^~~~~
eleven_faults.c:1:10: note: A has the cells 0 to 3
    1 | uint64_t A[4];
      |          ^~~~
eleven_faults.c:16:3: help: put it under an `if` that the values of the loops decide, or change the bounds of the loop
   16 | { A[10] = 1; }
      |   ^~~~~
eleven_faults.c:18:3: error: the subscript of A is 11, and A has 4 cells [E301]
   18 | { A[11] = 1; }
      |   ^~~~~
eleven_faults.c:1:10: note: A has the cells 0 to 3
    1 | uint64_t A[4];
      |          ^~~~
eleven_faults.c:18:3: help: put it under an `if` that the values of the loops decide, or change the bounds of the loop
   18 | { A[11] = 1; }
      |   ^~~~~
eleven_faults.c: 3 more faults were found
[1]

# a source whose check is dear: no change is looked for
$ ompc explain dear_check.c
dear_check.c:13:7: error: the host reads A[0], whose last value is on device 0: nothing has copied it to the host since [E506]
   13 | print(A[0]);
      |       ^~~~
dear_check.c:12:3: note: A[0] is written here, on device 0
   12 | { A[0] = 1; }
      |   ^~~~
dear_check.c:11:28: note: `map(to: A[0:4])` removes A[0] from device 0 here without copying it to the host
   11 | #pragma omp target map(to: A)
      |                            ^
dear_check.c:11:28: help: write `tofrom` in place of `to` here, which copies it to the host
dear_check.c:13:7: help: run `ompc fix` to look for a change
   13 | print(A[0]);
      |       ^~~~
[1]

# faults of the text
$ ompc explain cut_off.c
cut_off.c:1:17: error: the end of the text cannot stand here [E102]
    1 | int main(void) {
      |                 ^
cut_off.c:1:17: help: write the token that is missing before it, or take it away
[1]
$ ompc explain undeclared.c
undeclared.c:2:28: error: `B` is not declared here [E103]
    2 | #pragma omp target map(to: B)
      |                            ^
undeclared.c:2:28: help: declare it before, or take it away
[1]
$ ompc explain large_number.c
large_number.c:2:7: error: `18446744073709551616` is above 18446744073709551615 [E105]
    2 | print(18446744073709551616);
      |       ^~~~~~~~~~~~~~~~~~~~
large_number.c:2:7: help: write a smaller number
[1]

# an accepted program, and the other forms
$ ompc explain halves.c --format text
halves.c: accepted
$ ompc explain halves.c --format json
{
  "accepted": true,
  "diagnostics": [],
  "file": "halves.c",
  "fixes": [],
  "more": 0,
  "tried": null,
  "version": 1,
  "warnings": []
}
$ ompc explain mapped_to_only.c --format json
{
  "accepted": false,
  "diagnostics": [
    {
      "array": "A",
      "cell": 0,
      "code": "E506",
      "column": 45,
      "end_column": 49,
      "end_line": 6,
      "item": 2,
      "line": 6,
      "loops": [
        {
          "name": "i",
          "value": 0
        }
      ],
      "message": "the host reads A[0], whose last value is on device 0: nothing has copied it to the host since (in the turn i = 0)",
      "notes": [
        {
          "column": 39,
          "end_column": 43,
          "end_line": 5,
          "kind": "note",
          "line": 5,
          "loops": [
            {
              "name": "i",
              "value": 0
            }
          ],
          "message": "A[0] is written here, on device 0 (in the turn i = 0)"
        },
        {
          "column": 28,
          "end_column": 34,
          "end_line": 4,
          "kind": "note",
          "line": 4,
          "loops": [],
          "message": "`map(to: A[0:4])` removes A[0] from device 0 here without copying it to the host"
        },
        {
          "column": 28,
          "end_column": 34,
          "end_line": 4,
          "kind": "help",
          "line": 4,
          "loops": [],
          "message": "write `tofrom` in place of `to` here, which copies it to the host"
        }
      ],
      "rule": "the host reads current values alone"
    }
  ],
  "file": "mapped_to_only.c",
  "fixes": [
    {
      "edits": [
        {
          "column": 1,
          "end_column": 35,
          "end_line": 4,
          "line": 4,
          "text": "#pragma omp target map(tofrom: A[0:4])"
        }
      ],
      "message": "this change is accepted"
    }
  ],
  "more": 0,
  "tried": null,
  "version": 1,
  "warnings": []
}
[1]
$ ompc explain undeclared.c --format json
{
  "accepted": false,
  "diagnostics": [
    {
      "array": null,
      "cell": null,
      "code": "E103",
      "column": 28,
      "end_column": 29,
      "end_line": 2,
      "item": null,
      "line": 2,
      "loops": [],
      "message": "`B` is not declared here",
      "notes": [
        {
          "column": 28,
          "end_column": 29,
          "end_line": 2,
          "kind": "help",
          "line": 2,
          "loops": [],
          "message": "declare it before, or take it away"
        }
      ],
      "rule": "a name is declared before it is used; an array has a subscript, a scalar has none"
    }
  ],
  "file": "undeclared.c",
  "fixes": [],
  "more": 0,
  "tried": null,
  "version": 1,
  "warnings": []
}
[1]
$ ompc explain halves.c --format sarif
{
  "$schema": "https://docs.oasis-open.org/sarif/sarif/v2.1.0/errata01/os/schemas/sarif-schema-2.1.0.json",
  "runs": [
    {
      "columnKind": "unicodeCodePoints",
      "properties": {
        "more": 0
      },
      "results": [],
      "tool": {
        "driver": {
          "name": "ompc",
          "rules": [],
          "version": "0.1.0"
        }
      }
    }
  ],
  "version": "2.1.0"
}
$ ompc explain mapped_to_only.c --format sarif
{
  "$schema": "https://docs.oasis-open.org/sarif/sarif/v2.1.0/errata01/os/schemas/sarif-schema-2.1.0.json",
  "runs": [
    {
      "columnKind": "unicodeCodePoints",
      "properties": {
        "more": 0
      },
      "results": [
        {
          "fixes": [
            {
              "artifactChanges": [
                {
                  "artifactLocation": {
                    "uri": "mapped_to_only.c"
                  },
                  "replacements": [
                    {
                      "deletedRegion": {
                        "startColumn": 1,
                        "startLine": 4
                      },
                      "insertedContent": {
                        "text": "#pragma omp target map(tofrom: A[0:4])"
                      }
                    }
                  ]
                }
              ],
              "description": {
                "text": "this change is accepted"
              }
            }
          ],
          "level": "error",
          "locations": [
            {
              "physicalLocation": {
                "artifactLocation": {
                  "uri": "mapped_to_only.c"
                },
                "region": {
                  "endColumn": 49,
                  "endLine": 6,
                  "startColumn": 45,
                  "startLine": 6
                }
              }
            }
          ],
          "message": {
            "text": "the host reads A[0], whose last value is on device 0: nothing has copied it to the host since (in the turn i = 0)"
          },
          "properties": {
            "array": "A",
            "cell": 0,
            "item": 2,
            "loops": [
              {
                "name": "i",
                "value": 0
              }
            ]
          },
          "relatedLocations": [
            {
              "id": 0,
              "message": {
                "text": "note: A[0] is written here, on device 0 (in the turn i = 0)"
              },
              "physicalLocation": {
                "artifactLocation": {
                  "uri": "mapped_to_only.c"
                },
                "region": {
                  "endColumn": 43,
                  "endLine": 5,
                  "startColumn": 39,
                  "startLine": 5
                }
              },
              "properties": {
                "loops": [
                  {
                    "name": "i",
                    "value": 0
                  }
                ]
              }
            },
            {
              "id": 1,
              "message": {
                "text": "note: `map(to: A[0:4])` removes A[0] from device 0 here without copying it to the host"
              },
              "physicalLocation": {
                "artifactLocation": {
                  "uri": "mapped_to_only.c"
                },
                "region": {
                  "endColumn": 34,
                  "endLine": 4,
                  "startColumn": 28,
                  "startLine": 4
                }
              },
              "properties": {
                "loops": []
              }
            },
            {
              "id": 2,
              "message": {
                "text": "help: write `tofrom` in place of `to` here, which copies it to the host"
              },
              "physicalLocation": {
                "artifactLocation": {
                  "uri": "mapped_to_only.c"
                },
                "region": {
                  "endColumn": 34,
                  "endLine": 4,
                  "startColumn": 28,
                  "startLine": 4
                }
              },
              "properties": {
                "loops": []
              }
            }
          ],
          "ruleId": "E506"
        }
      ],
      "tool": {
        "driver": {
          "name": "ompc",
          "rules": [
            {
              "id": "E506",
              "shortDescription": {
                "text": "the host reads current values alone"
              }
            }
          ],
          "version": "0.1.0"
        }
      }
    }
  ],
  "version": "2.1.0"
}
[1]

# a form that there is not, a file that there is not
$ ompc explain halves.c --format xml
! bad format
[2]
$ ompc explain absent.c
! cannot read absent.c
[2]

# the colours of a terminal where they are asked for, and a time that there is not
$ ompc explain halves.c --color always
halves.c: accepted
$ ompc explain stale_on_another_device.c --color always
[1mstale_on_another_device.c:8:10: [1;31merror: [0mthe target reads A[0], whose last value is on device 0: nothing has copied it to device 1 since [E507]
    8 | { A[1] = A[0]; }
      | [1;32m         ^~~~[0m
[1mstale_on_another_device.c:6:3: [1;36mnote: [0mA[0] is written here, on device 0
    6 | { A[0] = 7; }
      | [1;32m  ^~~~[0m
[1mstale_on_another_device.c:8:1: [1;36mnote: [0mthe implicit `map(tofrom: A[0:2])` copies nothing here, since A[0:2] is on device 1 already
    8 | { A[1] = A[0]; }
      | [1;32m^[0m
[1mstale_on_another_device.c:4:39: [1;36mnote: [0mA[0:2] is on device 1 since it was entered here
    4 | #pragma omp target enter data map(to: A) device(1)
      | [1;32m                                      ^[0m
[1mstale_on_another_device.c:7:1: [1;32mhelp: [0mwrite `#pragma omp target update from(A[0:1])` before this
    7 | #pragma omp target device(1)
      | [1;32m^~~~~~~~~~~~~~~~~~~~~~~~~~~~[0m
[1mstale_on_another_device.c:7:1: [1;32mhelp: [0mthen write `#pragma omp target update to(A[0:1]) device(1)` before this
[1mstale_on_another_device.c:7:1: [1;32mhelp: [0mthis change is accepted
--- stale_on_another_device.c
+++ stale_on_another_device.c
@@ -6,0 +7,2 @@
[32m+#pragma omp target update from(A[0:1])
+#pragma omp target update to(A[0:1]) device(1)[0m
[1]
$ ompc explain halves.c --color sometimes
! bad color
[2]

# a tabulator, wide characters, and such as would change the order of others, in a long line
$ ompc explain other_scripts.c
other_scripts.c:3:43: error: the subscript of A is 9, and A has 8 cells [E301]
    3 |     /* 漢字 é <E2><80><AE> */ A[2] = 1; /* xxx */ A[9] = 3; /* yyyyyyyyyyyyyyyyyyyyyyyyyyyyyyyyyyyyyyyyyyyyy..
      |                                                   ^~~~
other_scripts.c:1:10: note: A has the cells 0 to 7
    1 | uint64_t A[8];
      |          ^~~~
other_scripts.c:3:43: help: put it under an `if` that the values of the loops decide, or change the bounds of the loop
    3 |     /* 漢字 é <E2><80><AE> */ A[2] = 1; /* xxx */ A[9] = 3; /* yyyyyyyyyyyyyyyyyyyyyyyyyyyyyyyyyyyyyyyyyyyyy..
      |                                                   ^~~~
[1]

# a byte that is no text
$ ompc explain control_byte.c
control_byte.c:3:22: error: this byte begins no token [E101]
    3 |     /* <C3><A9><FF> */ A[7] = <1B> 1;
      |                               ^~~~
control_byte.c:3:22: help: take it away
[1]

# lines that are inserted at one place are one edit
$ ompc explain --format json stale_on_another_device.c
{
  "accepted": false,
  "diagnostics": [
    {
      "array": "A",
      "cell": 0,
      "code": "E507",
      "column": 10,
      "end_column": 14,
      "end_line": 8,
      "item": 3,
      "line": 8,
      "loops": [],
      "message": "the target reads A[0], whose last value is on device 0: nothing has copied it to device 1 since",
      "notes": [
        {
          "column": 3,
          "end_column": 7,
          "end_line": 6,
          "kind": "note",
          "line": 6,
          "loops": [],
          "message": "A[0] is written here, on device 0"
        },
        {
          "column": 1,
          "end_column": 2,
          "end_line": 8,
          "kind": "note",
          "line": 8,
          "loops": [],
          "message": "the implicit `map(tofrom: A[0:2])` copies nothing here, since A[0:2] is on device 1 already"
        },
        {
          "column": 39,
          "end_column": 40,
          "end_line": 4,
          "kind": "note",
          "line": 4,
          "loops": [],
          "message": "A[0:2] is on device 1 since it was entered here"
        },
        {
          "column": 1,
          "end_column": 29,
          "end_line": 7,
          "kind": "help",
          "line": 7,
          "loops": [],
          "message": "write `#pragma omp target update from(A[0:1])` before this"
        },
        {
          "column": 1,
          "end_column": 29,
          "end_line": 7,
          "kind": "help",
          "line": 7,
          "loops": [],
          "message": "then write `#pragma omp target update to(A[0:1]) device(1)` before this"
        }
      ],
      "rule": "a kernel reads values alone that are current on its device"
    }
  ],
  "file": "stale_on_another_device.c",
  "fixes": [
    {
      "edits": [
        {
          "column": 1,
          "end_column": 1,
          "end_line": 7,
          "line": 7,
          "text": "#pragma omp target update from(A[0:1])\n#pragma omp target update to(A[0:1]) device(1)\n"
        }
      ],
      "message": "this change is accepted"
    }
  ],
  "more": 0,
  "tried": null,
  "version": 1,
  "warnings": []
}
[1]

# of two faults the first is mended by a type, and the other one by no change that is tried: how far it came is told
$ ompc explain mended_in_part.c
mended_in_part.c:6:7: error: the host reads A[1], whose last value is on device 0: nothing has copied it to the host since [E506]
    6 | print(A[1]);
      |       ^~~~
mended_in_part.c:5:39: note: A[1] is written here, on device 0 (in the turn i = 1)
    5 | for (uint64_t i = 0; i < 4; i += 1) { A[i] = i; }
      |                                       ^~~~
mended_in_part.c:4:28: note: `map(to: A[0:4])` removes A[1] from device 0 here without copying it to the host
    4 | #pragma omp target map(to: A)
      |                            ^
mended_in_part.c:4:28: help: write `tofrom` in place of `to` here, which copies it to the host
mended_in_part.c: no change found: steps 3, checks 5; the best one came to E510 at line 7
[1]
$ ompc explain --format json mended_in_part.c
{
  "accepted": false,
  "diagnostics": [
    {
      "array": "A",
      "cell": 1,
      "code": "E506",
      "column": 7,
      "end_column": 11,
      "end_line": 6,
      "item": 1,
      "line": 6,
      "loops": [],
      "message": "the host reads A[1], whose last value is on device 0: nothing has copied it to the host since",
      "notes": [
        {
          "column": 39,
          "end_column": 43,
          "end_line": 5,
          "kind": "note",
          "line": 5,
          "loops": [
            {
              "name": "i",
              "value": 1
            }
          ],
          "message": "A[1] is written here, on device 0 (in the turn i = 1)"
        },
        {
          "column": 28,
          "end_column": 29,
          "end_line": 4,
          "kind": "note",
          "line": 4,
          "loops": [],
          "message": "`map(to: A[0:4])` removes A[1] from device 0 here without copying it to the host"
        },
        {
          "column": 28,
          "end_column": 29,
          "end_line": 4,
          "kind": "help",
          "line": 4,
          "loops": [],
          "message": "write `tofrom` in place of `to` here, which copies it to the host"
        }
      ],
      "rule": "the host reads current values alone"
    }
  ],
  "file": "mended_in_part.c",
  "fixes": [],
  "more": 0,
  "tried": {
    "checks": 5,
    "latest": {
      "code": "E510",
      "line": 7
    },
    "steps": 3
  },
  "version": 1,
  "warnings": []
}
[1]
