#!/usr/bin/env bash
# The processor time of a turn of some loops in a region, beside the same source without its directives compiled with `gcc -O2`, beside Lua where
# it is installed, and for the first loop beside a stack machine in C with the same operations. The argument is the built program.
set -eu
ompc=$(realpath "$1")
here=$(dirname "$(realpath "$0")")
folder=$(mktemp -d)
trap 'rm -r "$folder"' EXIT
times=10

# milliseconds of processor time of a command, the least of eight runs; its output goes to a file
measure() {
    local TIMEFORMAT='%3U %3S' least=999999 user system milliseconds
    for _ in 1 2 3 4 5 6 7 8; do
        read -r user system < <({ time "$@" > "$folder/out"; } 2>&1)
        milliseconds=$((10#${user/./} + 10#${system/./}))
        least=$((milliseconds < least ? milliseconds : least))
    done
    echo $least
}

turns=$((times * 15 * 65536))
say() {
    local picoseconds=$(($2 * 1000000 / (turns / 1000)))
    printf '  %s: %d ms, %d.%d ns a turn of the inner loop, sum %s\n' "$1" "$2" \
        $((picoseconds / 1000)) $((picoseconds % 1000 / 100)) "$(head -1 "$folder/out")"
}

# a body in C and in Lua, and where its loop ends
compare() {
    printf '%s\n' "$1"
    printf 'uint64_t A[65536];\nuint64_t B[65536];
int main(void) {
#pragma omp target data map(tofrom: A, B)
for (uint64_t t = 0; t < %d; t += 1) {
#pragma omp target
{
uint64_t s = 0;
for (uint64_t k = 0; k < 15; k += 1) {
    for (uint64_t i = 0; i < %d; i += 1) { %s }
}
A[0] = A[0] + s;
}
}
uint64_t total = 0;
for (uint64_t i = 0; i < 65536; i += 1) { total = total + A[i] + B[i]; }
print(total);
}
' $times "$3" "$1" > "$folder/region.c"
    # what the check takes, which a run begins with, is taken off: reading, and the footprint of a region's 983,040 turns
    local check whole
    check=$(measure "$ompc" check "$folder/region.c")
    printf '  check: %d ms\n' "$check"
    whole=$(measure "$ompc" step "$folder/region.c")
    say 'region' $((whole - check))
    if command -v gcc > /dev/null; then
        gcc -O2 -include stdint.h -include stdio.h '-Dprint(n)=printf("%lu\n", (unsigned long) (n))' -w -o "$folder/native" "$folder/region.c"
        say 'gcc -O2' "$(measure "$folder/native")"
    fi
    if command -v lua5.4 > /dev/null; then
        printf 'local total, A, B = 0, {}, {}
for i = 0, 65535 do A[i] = 0; B[i] = 0 end
for t = 1, %d do
  local s = 0
  for k = 0, arg[1] - 1 do for i = 0, %d - 1 do %s end end
  A[0] = A[0] + s
end
for i = 0, 65535 do total = total + A[i] + B[i] end
print(string.format("%%u", total))
' $times "$3" "$2" > "$folder/region.lua"
        # the fill of the tables and the sum are taken off
        local rest
        rest=$(measure lua5.4 "$folder/region.lua" 0)
        whole=$(measure lua5.4 "$folder/region.lua" 15)
        say 'lua5.4' $((whole - rest))
    fi
}

compare 'A[i] = A[i] * 3 + (i ^ k);' 'A[i] = A[i] * 3 + (i ~ k)' 65536
if command -v gcc > /dev/null; then
    gcc -O2 -o "$folder/machine" "$here/stack_machine.c"
    say 'stack machine in C' "$(measure "$folder/machine" $times)"
fi
compare 's = s + A[i];' 's = s + A[i]' 65536
compare 'B[i] = A[i] + A[i + 1];' 'B[i] = A[i] + A[i + 1]' 65535
compare 'A[(i * 7) % 65536] = A[i % 4096] + i;' 'A[(i * 7) % 65536] = A[i % 4096] + i' 65536
compare 'if (A[i] < 3) { A[i] = A[i] + 1; } else { A[i] = 0; }' 'if A[i] < 3 then A[i] = A[i] + 1 else A[i] = 0 end' 65536
compare 'uint64_t u = A[i] * 5 + 7; A[i] = u ^ (u >> 29);' 'local u = A[i] * 5 + 7; A[i] = u ~ (u >> 29)' 65536
compare 's = s ^ (s << 13); s = s ^ (s >> 7); s = s ^ (s << 17); B[i] = B[i] + (s >> 32);' \
    's = s ~ (s << 13); s = s ~ (s >> 7); s = s ~ (s << 17); B[i] = B[i] + (s >> 32)' 65536
compare 's = s + A[i] * B[65535 - i];' 's = s + A[i] * B[65535 - i]' 65536
compare 'B[A[i] % 1024] = B[A[i] % 1024] + 1;' 'B[A[i] % 1024] = B[A[i] % 1024] + 1' 65536
compare 'A[(i * 3) % 65536] = (A[i] * 3 + B[i]) ^ (A[(i * 5) % 65536] - i);' \
    'A[(i * 3) % 65536] = (A[i] * 3 + B[i]) ~ (A[(i * 5) % 65536] - i)' 65536
