#!/usr/bin/env bash
# How long `ompc check` takes beside the rest of `ompc step` and beside `ompc run`, and how much memory, on time loops of kernels, on many tasks, on
# regions whose turns have to be walked; beside clang's offloading to the host where it is installed. The argument is the built program.
set -eu
ompc=$(realpath "$1")
folder=$(mktemp -d)
trap 'rm -r "$folder"' EXIT

# a time loop of that many kernels over 65,536 cells, in whose values the loop's name stands
values() {
    printf 'uint64_t A[65536];\nint main(void) {\n#pragma omp target data map(tofrom: A)\n'
    printf 'for (uint64_t k = 0; k < %d; k += 1) {\n#pragma omp target\n' "$1"
    printf 'for (uint64_t i = 0; i < 65536; i += 1) { A[i] = A[i] + k; }\n}\n}\n'
}

# the same over every second cell
seconds() {
    printf 'uint64_t A[65536];\nint main(void) {\n#pragma omp target data map(tofrom: A)\n'
    printf 'for (uint64_t k = 0; k < %d; k += 1) {\n#pragma omp target\n' "$1"
    printf 'for (uint64_t i = 0; i < 65536; i += 2) { A[i] = A[i] + k; }\n}\n}\n'
}

# the same over 16 arrays
arrays() {
    for ((a = 0; a < 16; a += 1)); do printf 'uint64_t A%d[65536];\n' "$a"; done
    printf 'int main(void) {\n#pragma omp target data'
    for ((a = 0; a < 16; a += 1)); do printf ' map(tofrom: A%d)' "$a"; done
    printf '\nfor (uint64_t k = 0; k < %d; k += 1) {\n#pragma omp target\n' "$1"
    printf 'for (uint64_t i = 0; i < 65536; i += 1) {'
    for ((a = 0; a < 16; a += 1)); do printf ' A%d[i] = A%d[i] + k;' "$a" "$a"; done
    printf ' }\n}\n}\n'
}

# deferred targets in eight chains
chains() {
    printf 'uint64_t A[128];\nint main(void) {\n#pragma omp target enter data map(to: A)\nfor (uint64_t n = 0; n < %d; n += 1) {\n' $(($1 / 8))
    printf 'for (uint64_t k = 0; k < 8; k += 1) {\n#pragma omp target map(alloc: A[16 * k:16]) nowait depend(inout: A[16 * k:16])\n'
    printf '{ A[16 * k] = A[16 * k] + n; }\n}\n}\n#pragma omp taskwait\n#pragma omp target update from(A)\n}\n'
}

# deferred targets on a cell each, of which none is before another
cells() {
    printf 'uint64_t A[65536];\nint main(void) {\n#pragma omp target enter data map(to: A)\nfor (uint64_t k = 0; k < %d; k += 1) {\n' "$1"
    printf '#pragma omp target map(alloc: A[k:1]) nowait\n{ A[k] = A[k] + 1; }\n}\n#pragma omp taskwait\n#pragma omp target update from(A)\n}\n'
}

# the same that map 16 cells each
sections() {
    printf 'uint64_t A[65536];\nint main(void) {\nfor (uint64_t k = 0; k < %d; k += 1) {\n' "$1"
    printf '#pragma omp target map(tofrom: A[16 * k:16]) nowait\n'
    printf 'for (uint64_t i = 0; i < 16; i += 1) { A[16 * k + i] = A[16 * k + i] + 1; }\n}\n#pragma omp taskwait\n}\n'
}

# as many blocks of a cell each, two cells apart, and then a target on each
blocks() {
    printf 'uint64_t A[65536];\nint main(void) {\nfor (uint64_t k = 0; k < %d; k += 1) {\n#pragma omp target enter data map(to: A[2 * k:1])\n}\n' "$1"
    printf 'for (uint64_t k = 0; k < %d; k += 1) {\n#pragma omp target map(tofrom: A[2 * k:1])\n{ A[2 * k] = A[2 * k] + k; }\n}\n}\n' "$1"
}

# deferred targets, each after the one before it
chain() {
    printf 'uint64_t A[1];\nint main(void) {\n#pragma omp target enter data map(to: A)\nfor (uint64_t k = 0; k < %d; k += 1) {\n' "$1"
    printf '#pragma omp target map(alloc: A) nowait depend(inout: A)\n{ A[0] = A[0] + 1; }\n}\n#pragma omp taskwait\n#pragma omp target update from(A)\n}\n'
}

# regions on the host, each with a wait behind it, of that many turns together
host() {
    printf 'uint64_t A[1023];\nint main(void) {\nfor (uint64_t k = 0; k < %d; k += 1) {\n' "$1"
    printf 'for (uint64_t i = 0; i < 1023; i += 1) { for (uint64_t j = 0; j < 1023; j += 1) { A[j] = A[i] + j; } }\n'
    printf '#pragma omp taskwait\n}\n}\n'
}

# one target of some 1,000,000 turns: a product of matrices, a histogram, every third cell, a condition on each turn, a hash
region() {
    printf 'uint64_t A[65536];\nuint64_t B[65536];\nuint64_t C[65536];\nint main(void) {\n#pragma omp target\n%s\n}\n' "$1"
}
product() { region 'for (uint64_t i = 0; i < 100; i += 1) { for (uint64_t j = 0; j < 100; j += 1) { for (uint64_t k = 0; k < 100; k += 1) { C[100 * i + j] = C[100 * i + j] + A[100 * i + k] * B[100 * k + j]; } } }'; }
histogram() { region 'for (uint64_t n = 0; n < 16; n += 1) { for (uint64_t i = 0; i < 65520; i += 1) { C[A[i + n] % 256] = C[A[i + n] % 256] + 1; } }'; }
thirds() { region 'for (uint64_t n = 0; n < 48; n += 1) { for (uint64_t i = 0; i < 65472; i += 3) { A[i + n] = B[i + n] + n; } }'; }
condition() { region 'for (uint64_t n = 0; n < 16; n += 1) { for (uint64_t i = 0; i < 65504; i += 1) { if (i % 3 == 0) { A[i + n] = B[i]; } else { C[i] = A[i + n] + 1; } } }'; }
hash() { region 'for (uint64_t n = 0; n < 16; n += 1) { for (uint64_t i = 0; i < 65504; i += 1) { A[(i * 40503 + n) % 65536] = B[(i * 7 + n) & 65535] + i; } }'; }

# milliseconds and KiB that a command takes
take() {
    /usr/bin/time -f '%e %M' -o "$folder/time" "$@" < /dev/null > /dev/null 2>&1 || true
    tail -1 "$folder/time"
}

# what a source takes: the check, the rest of a run event by event, and a run on threads
measure() {
    "$1" "${2:-}" > "$folder/source.c"
    local check memory step run
    read -r check memory <<< "$(take "$ompc" check "$folder/source.c")"
    read -r step _ <<< "$(take "$ompc" step "$folder/source.c")"
    read -r run _ <<< "$(take "$ompc" run "$folder/source.c")"
    awk -v name="$1 ${2:-}" -v check="$check" -v memory="$memory" -v step="$step" -v run="$run" 'BEGIN {
        rest = step > check ? step - check : 0
        printf "%-16s check %6.2f s, rest of step %6.2f s, run %6.2f s, %4d MiB\n", name, check, rest, run, memory / 1024
    }'
    if command -v clang > /dev/null && clang -O2 -include stdint.h -Dprint= -fopenmp -fopenmp-targets=x86_64-pc-linux-gnu \
        -o "$folder/offload" "$folder/source.c" 2> /dev/null; then
        local wall
        read -r wall _ <<< "$(take "$folder/offload")"
        printf '%-16s clang -fopenmp-targets %s s\n' '' "$wall"
    fi
}

for kernels in 1000 4000; do measure values "$kernels"; done
measure seconds 2000
measure arrays 1000
measure chains 3992
measure cells 4000
measure sections 4000
for tasks in 16000 60000; do measure cells "$tasks"; measure chain "$tasks"; done
for places in 4000 16000; do measure blocks "$places"; done
measure host 2000
for source in product histogram thirds condition hash; do measure "$source"; done
