#!/usr/bin/env bash
# How long `ompc list FILE` takes to read a source of just under 1 MiB, beside `gcc -fsyntax-only` and `gcc -fopenmp
# -fsyntax-only` on the same source. The argument is the built program.
set -eu
ompc=$(realpath "$1")
folder=$(mktemp -d)
trap 'rm -r "$folder"' EXIT

# 15,180 statements and directives: each tenth statement is a target's.
program() {
    printf '#include <stdint.h>\nuint64_t A[1000];\nint main(void) {\n'
    for ((k = 0; k < 13800; k += 1)); do
        if ((k % 10 == 0)); then
            printf '#pragma omp target map(tofrom: A[0:1000])\n{ A[%d] = A[%d] + 1; }\n' $((k % 1000)) $((k * 7 % 1000))
        else
            printf 'A[%d] = (A[%d] + %d) * 1103515245 ^ A[%d] >> 2 | (A[%d] & 4095) << 12;\n' \
                $((k % 1000)) $((k * 7 % 1000)) "$k" $((k * 3 % 1000)) $((k * 11 % 1000))
        fi
    done
    printf '}\n'
}

measure() {
    local start end name=$1
    shift
    start=$(date +%s%N)
    for _ in 1 2 3 4 5 6 7 8 9 10; do "$@" > /dev/null; done
    end=$(date +%s%N)
    printf '%s: %d microseconds\n' "$name" $(((end - start) / 10000))
}

program > "$folder/source.c"
printf '%d bytes\n' "$(stat -c %s "$folder/source.c")"
measure 'ompc list' "$ompc" list "$folder/source.c"
if command -v gcc > /dev/null; then
    measure 'gcc -fsyntax-only' gcc -fsyntax-only "$folder/source.c"
    measure 'gcc -fopenmp -fsyntax-only' gcc -fopenmp -fsyntax-only "$folder/source.c"
fi
