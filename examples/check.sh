#!/usr/bin/env bash
# Compares what is printed of each example with what is written down beside it:
#
#     examples/check.sh OMPC          runs each example, and checks each refused source, by the built program
#     examples/check.sh --c CC FLAG.. compiles each accepted example with a C compiler, and runs what it makes
#
# Without -fopenmp a C compiler passes over the directives; with it, and a device, the targets run there.
set -eu

# The files to compare with, of the sources that are accepted: a refusal begins with its code.
accepted() { grep -L '^E[0-9]' -- *.out known/*.out gallery/*.out; }

input_of() { if [ -e "$1.in" ]; then echo "$1.in"; else echo /dev/null; fi; }

compile_all() {
    folder=$(mktemp -d)
    trap 'rm -r "$folder"' EXIT
    for right in $(accepted); do
        local name=${right%.out}
        "$@" -I ../include -o "$folder/program" "$name.c"
        # behind the printed lines stand the final arrays, each with its name
        diff <(grep -v ':' "$right") <("$folder/program" < "$(input_of "$name")") || failed=1
    done
    [ "$failed" = 0 ] && echo "each accepted source, compiled by $1, prints what is written beside it"
}

# the file with what is to be printed, that of the input, and the words
same() {
    local right=$1 input=$2
    shift 2
    diff "$right" <("$ompc" "$@" < "$input" 2>&1) || failed=1
}

run_all() {
    for workers in 1 2 4 16; do
        for source in *.c; do
            same "${source%.c}.out" "$(input_of "${source%.c}")" run "$source" --finals --workers "$workers"
        done
        for source in known/*.c gallery/*.c; do
            same "${source%.c}.out" /dev/null run "$source" --workers "$workers"
        done
    done
    for source in refused/*.c; do
        same "${source%.c}.out" /dev/null check "$source"
    done
    for source in gallery/wrong/*.c; do
        diff "${source%.c}.out" <("$ompc" explain "$source" 2> /dev/null) || failed=1
    done
    [ "$failed" = 0 ] && echo "each source prints what is written beside it"
}

failed=0
if [ "$1" = --c ]; then
    shift
    cd "$(dirname "$0")"
    compile_all "$@"
else
    ompc=$(realpath "$1")
    cd "$(dirname "$0")"
    run_all
fi
exit "$failed"
