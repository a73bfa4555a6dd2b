# sources whose directives are changed so that they are accepted

# an accepted source is printed as it is
$ ompc fix double.c
uint64_t A[4];
int main(void) {
for (uint64_t i = 0; i < 4; i += 1) { A[i] = i; }
#pragma omp target map(tofrom: A[0:4])
for (uint64_t i = 0; i < 4; i += 1) { A[i] = A[i] * 2 + 1; }
for (uint64_t i = 0; i < 4; i += 1) { print(A[i]); }
}

# another type for a map item
$ ompc fix mapped_to_only.c
uint64_t A[4];
int main(void) {
for (uint64_t i = 0; i < 4; i += 1) { A[i] = i; }
#pragma omp target map(tofrom: A[0:4])
for (uint64_t i = 0; i < 4; i += 1) { A[i] = A[i] * 2 + 1; }
for (uint64_t i = 0; i < 4; i += 1) { print(A[i]); }
}
$ ompc fix update_forgotten.c
uint64_t A[1];
int main(void) {
#pragma omp target enter data map(to: A)
#pragma omp target
{ A[0] = 7; }
#pragma omp target update from(A)
print(A[0]);
}

# another type on the `target data` around a kernel
$ ompc fix data_mapped_to_only.c
uint64_t A[4];
int main(void) {
#pragma omp target data map(tofrom: A)
{
#pragma omp target
for (uint64_t i = 0; i < 4; i += 1) { A[i] = i + 1; }
}
print(A[1]);
}

# another type for all results of a kernel
$ ompc fix five_results.c
uint64_t A[2];
uint64_t B[2];
uint64_t C[2];
uint64_t D[2];
uint64_t E[2];
int main(void) {
#pragma omp target map(to: B) map(tofrom: A, C, D, E)
{
A[0] = 1;
C[0] = 3;
D[0] = 4;
E[0] = 5;
}
print(A[0] + C[0] + D[0] + E[0]);
}

# the other direction
$ ompc fix updated_in_the_other_direction.c
uint64_t A[2];
int main(void) {
#pragma omp target enter data map(to: A)
#pragma omp target
{ A[0] = 7; }
#pragma omp target update from(A)
print(A[0]);
#pragma omp target exit data map(release: A)
}

# what the host wrote between kernels, cell by cell
$ ompc fix written_between.c
uint64_t A[4];
int main(void) {
#pragma omp target data map(tofrom: A)
{
#pragma omp target
{ A[1] = 3; }
A[0] = 1;
A[3] = 2;
#pragma omp target update to(A[0:1])
#pragma omp target update to(A[3:1])
}
print(A[0] + A[3]);
}

# the device that has the array
$ ompc fix updated_without_its_device.c
uint64_t A[2];
int main(void) {
#pragma omp target enter data map(to: A) device(2)
#pragma omp target update to(A) device(2)
#pragma omp target exit data map(release: A) device(2)
}

# a copy to the host, from where an entry copies it to another device
$ ompc fix read_on_both.c
uint64_t A[1];
uint64_t B[1];
int main(void) {
#pragma omp target enter data map(alloc: A)
#pragma omp target
{ A[0] = 7; }
#pragma omp target update from(A)
#pragma omp target map(to: A) map(from: B) device(1)
{ B[0] = A[0]; }
print(B[0]);
}

# an entry with its exit
$ ompc fix update_alone.c
uint64_t A[4];
int main(void) {
#pragma omp target enter data map(to: A)
#pragma omp target update to(A)
#pragma omp target exit data map(release: A)
}

# a wider section
$ ompc fix not_mapped.c
uint64_t A[4];
int main(void) {
#pragma omp target map(tofrom: A[0:3])
{ A[2] = 1; }
}

# the same section in two depend items
$ ompc fix depends_overlap.c
uint64_t A[8];
int main(void) {
#pragma omp target map(tofrom: A) nowait depend(out: A[0:6])
{ A[0] = 1; }
#pragma omp target map(tofrom: A) nowait depend(in: A[0:6])
{ A[0] = 2; }
}

# a section that is cut at the end of its array
$ ompc fix past_the_array.c
uint64_t A[4];
int main(void) {
#pragma omp target enter data map(to: A[1:3])
}

# an order for a reader
$ ompc fix reads_unordered.c
uint64_t A[2];
uint64_t B[2];
int main(void) {
#pragma omp target data map(to: A) map(from: B)
{
#pragma omp target nowait depend(out: A)
{ A[0] = 7; }
#pragma omp target nowait depend(in: A)
{ B[0] = A[0]; }
#pragma omp taskwait
}
print(B[0]);
}

# an order for two additions
$ ompc fix lost_addition.c
uint64_t A[1];
int main(void) {
#pragma omp target enter data map(to: A)
#pragma omp target map(alloc: A) nowait depend(inout: A)
{ A[0] = A[0] + 1; }
#pragma omp target map(alloc: A) nowait depend(inout: A)
{ A[0] = A[0] + 1; }
#pragma omp taskwait
#pragma omp target update from(A)
print(A[0]);
}

# a kernel in a loop, whose results the next turn needs
$ ompc fix thousand_kernels_to.c
uint64_t A[4];
int main(void) {
for (uint64_t i = 0; i < 4; i += 1) { A[i] = i; }
for (uint64_t k = 0; k < 1000; k += 1) {
#pragma omp target map(tofrom: A[0:4])
for (uint64_t i = 0; i < 4; i += 1) { A[i] = A[i] * 2 + 1; }
}
for (uint64_t i = 0; i < 4; i += 1) { print(A[i]); }
}

# turns in order again
$ ompc fix next_cell.c
uint64_t A[4];
int main(void) {
#pragma omp target map(tofrom: A)
for (uint64_t i = 0; i < 3; i += 1) { A[i + 1] = A[i]; }
print(A[3]);
}
$ ompc fix one_cell_of_two_turns.c
uint64_t A[4];
int main(void) {
#pragma omp target teams distribute parallel for simd num_teams(2) map(from: A) schedule(static)
for (uint64_t i = 0; i < 4; i += 1) {
  for (uint64_t j = 0; j < 2; j += 1) { A[i] = j; }
}
print(A[3]);
}

# what no directive mends, and how much was tried
$ ompc fix below_the_array.c
! E301 item 0 line 3 column 39
! no change found: steps 1, checks 1
[1]
$ ompc fix long_loop.c
! E303 item 0 line 2 column 1
! no change found: steps 1, checks 1
[1]
$ ompc fix an_item_many_times.c
! E401
[1]
$ ompc fix cut_off.c
! E102 line 1 column 17
[1]
$ ompc fix mended_in_part.c
! E506 item 1 A[1]
! no change found: steps 3, checks 5
[1]

# an exit too many goes: of a block that is left at its end, and of a section that was left before; one in each turn goes
# behind the loop
$ ompc fix left_twice.c
uint64_t A[2];
int main(void) {
#pragma omp target data map(to: A)
{
}
}
$ ompc fix left_already.c
uint64_t A[4];
int main(void) {
#pragma omp target enter data map(to: A)
#pragma omp target exit data map(from: A)
}
$ ompc fix left_before_the_next_turn.c
uint64_t A[4];
int main(void) {
#pragma omp target enter data map(to: A)
for (uint64_t t = 0; t < 3; t += 1) {
#pragma omp target
for (uint64_t i = 0; i < 4; i += 1) { A[i] = A[i] + 1; }
}
#pragma omp target exit data map(from: A)
}
