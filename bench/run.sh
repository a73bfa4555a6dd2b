#!/usr/bin/env bash
# How long `ompc step FILE` and `ompc run FILE` take, beside `ompc check FILE`, which is a part of them; beside `gcc -O2` of the source without its
# directives; beside clang's offloading to the host, and beside Lua, where they are installed. The argument is the built program.
set -eu
ompc=$(realpath "$1")
folder=$(mktemp -d)
trap 'rm -r "$folder"' EXIT

# 4,000 deferred targets, each after the one before it by its depend item
tasks() {
    printf 'uint64_t A[4000];\nint main(void) {\n#pragma omp target enter data map(to: A)\n'
    printf 'for (uint64_t k = 0; k < 4000; k += 1) {\n'
    printf '#pragma omp target map(tofrom: A[k:1]) nowait depend(inout: A)\n{ A[k] = A[k] + 1; }\n}\n'
    printf '#pragma omp taskwait\n#pragma omp target update from(A)\nprint(A[3]);\n}\n'
}

# 4,000 copies of 512 KiB to the device
copies() {
    printf 'uint64_t A[65536];\nint main(void) {\n#pragma omp target enter data map(to: A)\n'
    printf 'for (uint64_t k = 0; k < 4000; k += 1) {\n#pragma omp target update to(A)\n}\nprint(A[3]);\n}\n'
}

# 983,040 turns of a loop on the host
host() {
    printf 'uint64_t A[65536];\nint main(void) {\nfor (uint64_t k = 0; k < 15; k += 1) {\n'
    printf 'for (uint64_t i = 0; i < 65536; i += 1) { A[i] = A[i] * 3 + (i ^ k); }\n}\nprint(A[3]);\n}\n'
}

# the same turns in a kernel
kernel() {
    printf 'uint64_t A[65536];\nint main(void) {\n#pragma omp target map(tofrom: A)\n'
    printf 'for (uint64_t k = 0; k < 15; k += 1) {\n'
    printf 'for (uint64_t i = 0; i < 65536; i += 1) { A[i] = A[i] * 3 + (i ^ k); }\n}\nprint(A[3]);\n}\n'
}

# 100 kernels of 65,536 turns
kernels() {
    printf 'uint64_t A[65536];\nint main(void) {\n#pragma omp target data map(tofrom: A)\n'
    printf 'for (uint64_t k = 0; k < 100; k += 1) {\n#pragma omp target\n'
    printf 'for (uint64_t i = 0; i < 65536; i += 1) { A[i] = A[i] + 1; }\n}\nprint(A[3]);\n}\n'
}

# 16 independent kernels of 983,040 turns each
apart() {
    for ((a = 0; a < 16; a += 1)); do printf 'uint64_t A%d[65536];\n' "$a"; done
    printf 'int main(void) {\n'
    for ((a = 0; a < 16; a += 1)); do
        printf '#pragma omp target map(tofrom: A%d) nowait\nfor (uint64_t k = 0; k < 15; k += 1) {\n' "$a"
        printf 'for (uint64_t i = 0; i < 65536; i += 1) { A%d[i] = A%d[i] * 3 + (i ^ k); }\n}\n' "$a" "$a"
    done
    printf '#pragma omp taskwait\nprint(A15[3]);\n}\n'
}

# twelve statements on a local
mixed() {
    for ((n = 0; n < 3; n += 1)); do printf 'x = x ^ (x << 13); x = x ^ (x >> 7); x = x ^ (x << 17); x = x * 3 + k;\n'; done
}

# so many of them with thirteen statements a turn in place of one
long_kernels() {
    for ((a = 0; a < $1; a += 1)); do printf 'uint64_t A%d[65536];\n' "$a"; done
    printf 'int main(void) {\n'
    for ((a = 0; a < $1; a += 1)); do
        printf '#pragma omp target map(tofrom: A%d) nowait\nfor (uint64_t k = 0; k < 15; k += 1) {\n' "$a"
        printf 'for (uint64_t i = 0; i < 65536; i += 1) {\nuint64_t x = A%d[i] + i;\n' "$a"
        mixed
        printf 'A%d[i] = x;\n}\n}\n' "$a"
    done
    printf '#pragma omp taskwait\nprint(A0[3]);\n}\n'
}

long() { long_kernels 16; }

# one kernel of 1,024,000 such turns, whose 64 rows may be done in any order
one() {
    printf 'uint64_t A[65536];\nint main(void) {\n#pragma omp target teams distribute parallel for map(tofrom: A)\n'
    printf 'for (uint64_t b = 0; b < 64; b += 1) {\nfor (uint64_t k = 0; k < 16; k += 1) {\n'
    printf 'for (uint64_t i = 0; i < 1000; i += 1) {\nuint64_t x = A[1000 * b + i] + i;\n'
    mixed
    printf 'A[1000 * b + i] = x;\n}\n}\n}\nprint(A[3]);\n}\n'
}

lua() {
    printf 'local A = {}\nfor i = 0, 65535 do A[i] = 0 end\n'
    printf 'for k = 0, 14 do for i = 0, 65535 do A[i] = A[i] * 3 + (i ~ k) end end\nprint(string.format("%%u", A[3]))\n'
}

# what a command takes, and the first line that it prints
say() {
    local name=$1 TIMEFORMAT='%R s, processor %U + %S s' taken
    shift
    taken=$({ time "$@" < /dev/null > "$folder/out" 2> "$folder/err"; } 2>&1) || taken="$taken, failed"
    printf '  %s: %s, prints %s\n' "$name" "$taken" "$(head -1 "$folder/out")"
}

printf '#include <stdint.h>\n#include <stdio.h>\n#define print(x) printf("%%llu\\n", (unsigned long long)(x))\n' > "$folder/print.h"
for source in tasks copies host kernel kernels apart long one; do
    echo "$source"
    "$source" > "$folder/$source.c"
    say 'ompc check' "$ompc" check "$folder/$source.c"
    say 'ompc step' "$ompc" step "$folder/$source.c"
    say 'ompc run, 1 worker' "$ompc" run "$folder/$source.c" --workers 1
    say 'ompc run, 4 workers' "$ompc" run "$folder/$source.c" --workers 4
    if command -v gcc > /dev/null; then
        gcc -O2 -include "$folder/print.h" -o "$folder/$source" "$folder/$source.c" 2> /dev/null
        say 'gcc -O2, no directives' "$folder/$source"
    fi
    if command -v clang > /dev/null && clang -O2 -fopenmp -fopenmp-targets=x86_64-pc-linux-gnu \
        -include "$folder/print.h" -o "$folder/$source.offload" "$folder/$source.c" 2> /dev/null; then
        say 'clang -fopenmp-targets' "$folder/$source.offload"
    fi
done
# what the processors give: a quarter of the long kernels on one worker, alone and four times at once
long_kernels 4 > "$folder/quarter.c"
quarters() {
    for ((p = 0; p < $1; p += 1)); do "$ompc" run "$folder/quarter.c" --workers 1 & done
    wait
}
echo 'a quarter of long'
say 'one program' quarters 1
say 'four programs at once' quarters 4
if command -v lua5.4 > /dev/null; then
    lua > "$folder/host.lua"
    say 'lua5.4, the loop of host' lua5.4 "$folder/host.lua"
fi
