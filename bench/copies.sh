#!/usr/bin/env bash
# What copies of rows cost: kernels that store whole arrays of 65,536 cells, and kernels and updates between which nothing is
# stored, by `ompc run`, and beside clang's offloading to the host where it is installed. The argument is the built program.
set -eu
ompc=$(realpath "$1")
folder=$(mktemp -d)
trap 'rm -r "$folder"' EXIT

# kernels that store each cell of 16 arrays
arrays() {
    for ((a = 0; a < 16; a += 1)); do printf 'uint64_t A%d[65536];\n' "$a"; done
    printf 'int main(void) {\n#pragma omp target data'
    for ((a = 0; a < 16; a += 1)); do printf ' map(tofrom: A%d)' "$a"; done
    printf '\nfor (uint64_t k = 0; k < %d; k += 1) {\n#pragma omp target\nfor (uint64_t i = 0; i < 65536; i += 1) {' "$1"
    for ((a = 0; a < 16; a += 1)); do printf ' A%d[i] = A%d[i] + k;' "$a" "$a"; done
    printf ' }\n}\n}\n'
}

# kernels of one statement that store each cell of one array
one() {
    printf 'uint64_t A[65536];\nint main(void) {\n#pragma omp target data map(tofrom: A)\n'
    printf 'for (uint64_t k = 0; k < %d; k += 1) {\n#pragma omp target\n' "$1"
    printf 'for (uint64_t i = 0; i < 65536; i += 1) { A[i] = A[i] * 3 + (i ^ k); }\n}\n}\n'
}

# the same turns in a fifteenth of the kernels
turns() {
    printf 'uint64_t A[65536];\nint main(void) {\n#pragma omp target data map(tofrom: A)\n'
    printf 'for (uint64_t n = 0; n < %d; n += 1) {\n#pragma omp target\nfor (uint64_t k = 0; k < 15; k += 1) {\n' "$1"
    printf 'for (uint64_t i = 0; i < 65536; i += 1) { A[i] = A[i] * 3 + (i ^ k); }\n}\n}\n}\n'
}

# kernels that store a hundred cells of one array
few() {
    printf 'uint64_t A[65536];\nint main(void) {\n#pragma omp target data map(tofrom: A)\n'
    printf 'for (uint64_t k = 0; k < %d; k += 1) {\n#pragma omp target\n' "$1"
    printf 'for (uint64_t i = 0; i < 100; i += 1) { A[7 * i] = A[7 * i] + k; }\n}\n}\n'
}

# kernels that each read 16 arrays and store one cell
reads() {
    for ((a = 0; a < 16; a += 1)); do printf 'uint64_t A%d[65536];\n' "$a"; done
    printf 'uint64_t S[1];\nint main(void) {\n#pragma omp target data map(tofrom: S)'
    for ((a = 0; a < 16; a += 1)); do printf ' map(to: A%d)' "$a"; done
    printf '\nfor (uint64_t k = 0; k < %d; k += 1) {\n#pragma omp target\nfor (uint64_t i = 0; i < 65536; i += 65535) { S[0] = S[0]' "$1"
    for ((a = 0; a < 16; a += 1)); do printf ' + A%d[i]' "$a"; done
    printf '; }\n}\n}\n'
}

# copies of an array to the device
copies() {
    printf 'uint64_t A[65536];\nint main(void) {\n#pragma omp target data map(to: A)\n'
    printf 'for (uint64_t k = 0; k < %d; k += 1) {\n#pragma omp target update to(A)\n}\n}\n' "$1"
}

# the same, before each of which the host stores a cell of each 512
stored() {
    printf 'uint64_t A[65536];\nint main(void) {\n#pragma omp target data map(to: A)\n'
    printf 'for (uint64_t k = 0; k < %d; k += 1) {\nfor (uint64_t i = 0; i < 65536; i += 512) { A[i] = k; }\n' "$1"
    printf '#pragma omp target update to(A)\n}\n}\n'
}

# as many bytes by memcpy, with these stores before each copy
by_memcpy() {
    cat > "$folder/by_memcpy.c" << 'END'
#include <stdint.h>
#include <stdlib.h>
#include <string.h>
static volatile uint64_t A[65536], B[65536];
int main(int argc, char **argv) {
    uint64_t n = strtoull(argv[1], NULL, 10);
    for (uint64_t k = 0; k < n; k += 1) {
        for (uint64_t i = 0; i < 65536; i += 512) A[i] = k;
        memcpy((void *)B, (const void *)A, sizeof A);
    }
}
END
    if ! command -v cc > /dev/null; then return; fi
    cc -O2 -o "$folder/by_memcpy" "$folder/by_memcpy.c"
    local told
    told=$(take "$folder/by_memcpy" "$1")
    printf '%-14s memcpy %s s\n' '' "${told% *}"
}

# seconds and KiB that a command takes, which must not fail
take() {
    if ! /usr/bin/time -f '%e %M' -o "$folder/time" "$@" < /dev/null > /dev/null 2> "$folder/err"; then
        echo "$1 failed: $(head -1 "$folder/err")" >&2
        return 1
    fi
    tail -1 "$folder/time"
}

measure() {
    "$1" "$2" > "$folder/source.c"
    "$ompc" check "$folder/source.c" > /dev/null
    local told check run memory
    told=$(take "$ompc" check "$folder/source.c")
    check=${told% *}
    told=$(take "$ompc" run "$folder/source.c")
    run=${told% *}
    memory=${told#* }
    awk -v name="$1 $2" -v check="$check" -v run="$run" -v memory="$memory" 'BEGIN {
        printf "%-14s check %5.2f s, run %6.2f s, %4d MiB\n", name, check, run, memory / 1024
    }'
    if command -v clang > /dev/null && clang -O2 -include stdint.h -Dprint= -fopenmp -fopenmp-targets=x86_64-pc-linux-gnu \
        -o "$folder/offload" "$folder/source.c" 2> /dev/null; then
        if told=$(take "$folder/offload"); then
            printf '%-14s clang -fopenmp-targets %s s\n' '' "${told% *}"
        fi
    fi
}

measure arrays 200
measure one 1005
measure turns 67
measure few 1000
measure reads 200
measure copies 4000
measure stored 4000
by_memcpy 4000
