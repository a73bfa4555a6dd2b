#!/usr/bin/env bash
# What `explain`, `fix` and `witness` take on a long source that is refused, beside `check` of it. The argument is the built program.
set -eu
ompc=$(realpath "$1")
folder=$(mktemp -d)
trap 'rm -r "$folder"' EXIT

# as many statements of a host region and of kernels, and a copy that was forgotten at the end
long() {
    printf 'uint64_t A[64];\nint main(void) {\n'
    for ((k = 0; k < $1 / 4; k += 1)); do
        printf '#pragma omp target map(tofrom: A)\n{ A[%d] = A[%d] + 1; }\nA[0] = A[0] + %d;\n' $((k % 64)) $(((k + 1) % 64)) "$k"
    done
    printf '#pragma omp target map(to: A)\n{ A[1] = 7; }\nprint(A[1]);\n}\n'
}

# as many statements, and two targets at the end that write the same with no order between them: each of the runs that `witness` tries prints the same
equal() {
    printf 'uint64_t A[64];\nuint64_t B[64];\nint main(void) {\n#pragma omp target enter data map(to: A) map(to: B)\n'
    for ((k = 0; k < $1 / 3; k += 1)); do
        printf '#pragma omp target map(alloc: A)\n{ A[%d] = A[%d] + 1; }\nB[0] = B[0] + %d;\n' $((k % 64)) $(((k + 1) % 64)) "$k"
    done
    printf '#pragma omp target nowait map(alloc: B)\n{ B[1] = 7; }\n#pragma omp target nowait map(alloc: B)\n{ B[1] = 7; }\n'
    printf '#pragma omp taskwait\n#pragma omp target update from(A)\nprint(A[1]);\n}\n'
}

# seconds of a command, the least of three runs
seconds() {
    local TIMEFORMAT='%3R' least=999999 taken
    for _ in 1 2 3; do
        read -r taken < <({ time "$@" > /dev/null 2> /dev/null < /dev/null || true; } 2>&1)
        taken=$((10#${taken/./}))
        least=$((taken < least ? taken : least))
    done
    printf '%d.%03d s' $((least / 1000)) $((least % 1000))
}

for statements in 1024 4096 16000; do
    long $statements > "$folder/long.c"
    printf '%d statements:' "$statements"
    for command in check explain fix witness; do
        printf ' %s %s' "$command" "$(seconds "$ompc" "$command" "$folder/long.c")"
    done
    printf '\n'
done

equal 800 > "$folder/equal.c"
printf '800 statements, no run differs: check %s witness %s\n' "$(seconds "$ompc" check "$folder/equal.c")" "$(seconds "$ompc" witness "$folder/equal.c")"
