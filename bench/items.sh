#!/usr/bin/env bash
# How long `ompc list`, `check`, `step` and `run` take on sources with more and more items, up to 65,536, and how much memory, beside clang's
# offloading to the host where it is installed. The argument is the built program.
set -eu
ompc=$(realpath "$1")
folder=$(mktemp -d)
trap 'rm -r "$folder"' EXIT

# a time loop of that many items, two a turn: a target that is not deferred, and an update
steps() {
    printf 'uint64_t A[16];\nint main(void) {\n#pragma omp target enter data map(to: A)\n'
    printf 'for (uint64_t k = 0; k < %d; k += 1) {\n#pragma omp target\n{ A[3] = A[3] + 1; }\n' $((($1 - 2) / 2))
    printf '#pragma omp target update from(A[3:1])\n}\nprint(A[3]);\n}\n'
}

# deferred targets, each with a wait behind it
waits() {
    printf 'uint64_t A[1];\nint main(void) {\nfor (uint64_t k = 0; k < %d; k += 1) {\n' $(($1 / 2))
    printf '#pragma omp target map(alloc: A) nowait\n{ }\n#pragma omp taskwait\n}\n}\n'
}

# deferred targets in two chains on two devices, and one wait behind them
chains() {
    printf 'uint64_t A[1];\nuint64_t B[1];\nint main(void) {\n#pragma omp target enter data map(to: A)\n'
    printf '#pragma omp target enter data map(to: B) device(1)\nfor (uint64_t k = 0; k < %d; k += 1) {\n' $((($1 - 4) / 2))
    printf '#pragma omp target map(alloc: A) nowait depend(inout: A)\n{ A[0] = A[0] + 1; }\n'
    printf '#pragma omp target device(1) map(alloc: B) nowait depend(inout: B)\n{ B[0] = B[0] + 2; }\n}\n'
    printf '#pragma omp taskwait\n#pragma omp target update from(A)\n}\n'
}

# deferred targets on a cell each, and one wait behind them
cells() {
    printf 'uint64_t A[65536];\nint main(void) {\nfor (uint64_t k = 0; k < %d; k += 1) {\n' $(($1 - 1))
    printf '#pragma omp target map(tofrom: A[k:1]) nowait\n{ A[k] = A[k] + 1; }\n}\n#pragma omp taskwait\n}\n'
}

# what a command takes, in seconds and in the most memory that it had
say() {
    local name=$1
    shift
    /usr/bin/time -f "  $name: %e s, %M KiB" "$@" < /dev/null > /dev/null 2> "$folder/err" || true
    tail -1 "$folder/err"
}

# that source of that many items, by each command
measure() {
    echo "$1, $2 items"
    "$1" "$2" > "$folder/source.c"
    for command in list check step run; do
        say "ompc $command" "$ompc" "$command" "$folder/source.c"
    done
}

for source in steps waits; do
    for items in 16384 32768 65536; do measure "$source" "$items"; done
    if command -v clang > /dev/null && clang -O2 -include stdint.h -Dprint= -fopenmp -fopenmp-targets=x86_64-pc-linux-gnu \
        -o "$folder/offload" "$folder/source.c" 2> /dev/null; then
        say 'clang -fopenmp-targets' "$folder/offload"
    fi
done
for items in 2048 4096 8192; do measure cells "$items"; done
# of these the order takes a bit for each pair
for items in 2048 4096 8192; do measure chains "$items"; done
