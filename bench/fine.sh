#!/usr/bin/env bash
# How many events a second `ompc step --fine` does, and how much memory they take, beside `ompc step` of the same source, where a kernel is one
# event, and beside Python, where it is installed: the same loads, stores and log. The argument is the built program.
set -eu
ompc=$(realpath "$1")
folder=$(mktemp -d)
trap 'rm -r "$folder"' EXIT

# that many kernels of 65,536 turns, each with a load and a store
kernels() {
    printf 'uint64_t A[65536];\nint main(void) {\n#pragma omp target data map(tofrom: A)\n'
    printf 'for (uint64_t k = 0; k < %d; k += 1) {\n#pragma omp target\n' "$1"
    printf 'for (uint64_t i = 0; i < 65536; i += 1) { A[i] = A[i] + 1; }\n}\nprint(A[3]);\n}\n'
}

# the same loads and stores, each with its line in the log
plain() {
    printf 'A = [0] * 65536\nlog = []\nfor k in range(%d):\n    for i in range(65536):\n' "$1"
    printf '        value = A[i]\n        log.append(0)\n        A[i] = value + 1 & 18446744073709551615\n        log.append(0)\n'
    printf 'print(A[3])\nprint("\\n".join(["step %%d" %% item for item in log]))\n'
}

# what a command takes, in seconds and in the most memory that it had
say() {
    local name=$1
    shift
    /usr/bin/time -f "  $name: %e s, %M KiB" "$@" < /dev/null > "$folder/out" 2> "$folder/err" || true
    tail -1 "$folder/err"
}

for times in 10 20 40; do
    kernels "$times" > "$folder/source.c"
    plain "$times" > "$folder/plain.py"
    "$ompc" step "$folder/source.c" --fine < /dev/null > "$folder/out"
    echo "$times kernels, $(grep -c '^[a-z]' "$folder/out") events"
    say 'ompc check' "$ompc" check "$folder/source.c"
    say 'ompc step' "$ompc" step "$folder/source.c"
    say 'ompc step --fine' "$ompc" step "$folder/source.c" --fine
    if command -v python3 > /dev/null; then say python3 python3 "$folder/plain.py"; fi
done
