#!/usr/bin/env bash
# How long `ompc list FILE` takes for more items and for more statements. The argument is the built program.
set -eu
ompc=$(realpath "$1")
folder=$(mktemp -d)
trap 'rm -r "$folder"' EXIT

items() {
    printf 'int main(void) {\nfor (uint64_t i = 0; i < %d; i += 1) {\n#pragma omp taskwait\n}\n}\n' "$1"
}

statements() {
    printf 'uint64_t A[4];\nint main(void) {\n'
    for ((k = 0; k < $1; k += 1)); do printf 'A[%d] = %d + A[0] * 3;\n' $((k % 4)) "$k"; done
    printf '}\n'
}

measure() {
    local start end
    start=$(date +%s%N)
    for _ in 1 2 3 4 5 6 7 8 9 10; do "$ompc" list "$folder/source.c" > /dev/null; done
    end=$(date +%s%N)
    printf '%s: %d microseconds, %d bytes\n' "$1" $(((end - start) / 10000)) "$(stat -c %s "$folder/source.c")"
}

for n in 1024 2048 4096; do
    items $n > "$folder/source.c"
    measure "$n items"
done
for n in 4096 8192 16384; do
    statements $n > "$folder/source.c"
    measure "$n statements"
done
