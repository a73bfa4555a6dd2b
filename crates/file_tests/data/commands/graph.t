# deferred items on two devices, each before the wait; a fork and a join
$ ompc explain kernels_on_two_devices.c --format dot
digraph ompc {
  graph [labelloc=t, fontname="sans-serif"];
  node [shape=box, style=filled, color="#5b6470", fontname="sans-serif"];
  edge [color="#5b6470", fontname="sans-serif"];
  label="kernels_on_two_devices.c: accepted";
  i0 [label="0 host\nline 4", tooltip="B[0] = 3;", fillcolor="#e3edfb"];
  i1 [label="1 target nowait\nline 5", tooltip="#pragma omp target map(tofrom: A) nowait", fillcolor="#fbecd4", style="rounded,filled"];
  i2 [label="2 target nowait\nline 7, device 1", tooltip="#pragma omp target map(tofrom: B) nowait device(1)", fillcolor="#d9f1ec", style="rounded,filled"];
  i3 [label="3 taskwait\nline 9", tooltip="#pragma omp taskwait", fillcolor="#e3edfb"];
  i4 [label="4 host\nline 10", tooltip="print(A[7]); print(B[0]);", fillcolor="#e3edfb"];
  i0 -> i1;
  i0 -> i2;
  i1 -> i3;
  i2 -> i3;
  i3 -> i4;
}

# the first is before the third because it is before the second, and no edge says so again
$ ompc explain chain.c --format dot
digraph ompc {
  graph [labelloc=t, fontname="sans-serif"];
  node [shape=box, style=filled, color="#5b6470", fontname="sans-serif"];
  edge [color="#5b6470", fontname="sans-serif"];
  label="chain.c: accepted";
  i0 [label="0 target nowait\nline 5", tooltip="#pragma omp target map(tofrom: C) nowait depend(out: A)", fillcolor="#fbecd4", style="rounded,filled"];
  i1 [label="1 target nowait\nline 7", tooltip="#pragma omp target map(tofrom: B) nowait depend(in: A) depend(out: B)", fillcolor="#fbecd4", style="rounded,filled"];
  i2 [label="2 target nowait\nline 9", tooltip="#pragma omp target map(tofrom: C) nowait depend(in: B)", fillcolor="#fbecd4", style="rounded,filled"];
  i3 [label="3 taskwait\nline 11", tooltip="#pragma omp taskwait", fillcolor="#e3edfb"];
  i4 [label="4 host\nline 12", tooltip="print(C[0]); print(B[0]);", fillcolor="#e3edfb"];
  i0 -> i1;
  i1 -> i2;
  i2 -> i3;
  i3 -> i4;
}

# turns of a loop of directives
$ ompc explain updates_in_a_loop.c --format dot
digraph ompc {
  graph [labelloc=t, fontname="sans-serif"];
  node [shape=box, style=filled, color="#5b6470", fontname="sans-serif"];
  edge [color="#5b6470", fontname="sans-serif"];
  label="updates_in_a_loop.c: accepted";
  i0 [label="0 target enter data\nline 3", tooltip="#pragma omp target enter data map(to: A)", fillcolor="#fbecd4"];
  i1 [label="1 target update\nline 5, turn 0", tooltip="#pragma omp target update to(A[2*k:1])", fillcolor="#fbecd4"];
  i2 [label="2 host\nline 6, turn 0", tooltip="A[0] = k;", fillcolor="#e3edfb"];
  i3 [label="3 target update\nline 5, turn 1", tooltip="#pragma omp target update to(A[2*k:1])", fillcolor="#fbecd4"];
  i4 [label="4 host\nline 6, turn 1", tooltip="A[0] = k;", fillcolor="#e3edfb"];
  i0 -> i1;
  i1 -> i2;
  i2 -> i3;
  i3 -> i4;
}

# two items that conflict: both are red, and what joins them is dashed and has no direction
$ ompc explain lost_addition.c --format dot
digraph ompc {
  graph [labelloc=t, fontname="sans-serif"];
  node [shape=box, style=filled, color="#5b6470", fontname="sans-serif"];
  edge [color="#5b6470", fontname="sans-serif"];
  label="lost_addition.c: refused, E508";
  i0 [label="0 target enter data\nline 3", tooltip="#pragma omp target enter data map(to: A)", fillcolor="#fbecd4"];
  i1 [label="1 target nowait\nline 4", tooltip="#pragma omp target map(alloc: A) nowait", fillcolor="#fbecd4", style="rounded,filled", color=red, fontcolor=red, penwidth=2];
  i2 [label="2 target nowait\nline 6", tooltip="#pragma omp target map(alloc: A) nowait", fillcolor="#fbecd4", style="rounded,filled", color=red, fontcolor=red, penwidth=2];
  i3 [label="3 taskwait\nline 8", tooltip="#pragma omp taskwait", fillcolor="#e3edfb"];
  i4 [label="4 target update\nline 9", tooltip="#pragma omp target update from(A)", fillcolor="#fbecd4"];
  i5 [label="5 host\nline 10", tooltip="print(A[0]);", fillcolor="#e3edfb"];
  i0 -> i1;
  i0 -> i2;
  i1 -> i3;
  i2 -> i3;
  i3 -> i4;
  i4 -> i5;
  i1 -> i2 [dir=none, style=dashed, color=red, fontcolor=red, constraint=false, label="E508 A[0]"];
}
[1]

# an item that is refused by itself
$ ompc explain mapped_to_only.c --format dot
digraph ompc {
  graph [labelloc=t, fontname="sans-serif"];
  node [shape=box, style=filled, color="#5b6470", fontname="sans-serif"];
  edge [color="#5b6470", fontname="sans-serif"];
  label="mapped_to_only.c: refused, E506";
  i0 [label="0 host\nline 3", tooltip="for (uint64_t i = 0; i < 4; i += 1) { A[i] = i; }", fillcolor="#e3edfb"];
  i1 [label="1 target\nline 4", tooltip="#pragma omp target map(to: A[0:4])", fillcolor="#fbecd4"];
  i2 [label="2 host\nline 6\nE506 A[0]", tooltip="for (uint64_t i = 0; i < 4; i += 1) { print(A[i]); }", fillcolor="#e3edfb", color=red, fontcolor=red, penwidth=2];
  i0 -> i1;
  i1 -> i2;
}
[1]

# depend items that overlap in part: there is no order
$ ompc explain depends_overlap.c --format dot
digraph ompc {
  graph [labelloc=t, fontname="sans-serif"];
  node [shape=box, style=filled, color="#5b6470", fontname="sans-serif"];
  edge [color="#5b6470", fontname="sans-serif"];
  label="depends_overlap.c: refused, E505";
  i0 [label="0 target nowait\nline 3", tooltip="#pragma omp target map(tofrom: A) nowait depend(out: A[0:4])", fillcolor="#fbecd4", style="rounded,filled", color=red, fontcolor=red, penwidth=2];
  i1 [label="1 target nowait\nline 5", tooltip="#pragma omp target map(tofrom: A) nowait depend(in: A[2:4])", fillcolor="#fbecd4", style="rounded,filled", color=red, fontcolor=red, penwidth=2];
  // which item is before which is not told, since sections do not fit or overlap in part
  i0 -> i1 [style=invis];
  i0 -> i1 [dir=none, style=dashed, color=red, fontcolor=red, constraint=false, label="E505 A[2]"];
}
[1]

# a text that is not read, and one with no items
$ ompc explain undeclared.c --format dot
digraph ompc {
  graph [labelloc=t, fontname="sans-serif"];
  node [shape=box, style=filled, color="#5b6470", fontname="sans-serif"];
  edge [color="#5b6470", fontname="sans-serif"];
  label="undeclared.c: refused, E103\n`B` is not declared here";
}
[1]
$ ompc explain nothing.c --format dot
digraph ompc {
  graph [labelloc=t, fontname="sans-serif"];
  node [shape=box, style=filled, color="#5b6470", fontname="sans-serif"];
  edge [color="#5b6470", fontname="sans-serif"];
  label="nothing.c: accepted";
}
