#!/usr/bin/env bash
# Fuzzes `check`, `explain` and `run` with AFL++ (Debian's package afl++), each for so many seconds, with the examples as seeds: texts on which the program
# is killed by a signal, or hangs, are named. The program is not instrumented, so its way through the code is not seen. The arguments are the built
# program and the seconds for each command (600 where none are given).
set -eu
ompc=$(realpath "$1")
seconds=${2:-600}
here=$(dirname "$(realpath "$0")")
folder=$(mktemp -d)
trap 'rm -r "$folder"' EXIT
mkdir "$folder/seeds"
cp "$here"/../examples/*.c "$here"/../examples/known/*.c "$here"/../examples/refused/*.c "$folder/seeds"
export AFL_NO_UI=1 AFL_SKIP_CPUFREQ=1 AFL_I_DONT_CARE_ABOUT_MISSING_CRASHES=1 AFL_NO_AFFINITY=1
found=0
for command in check explain run; do
    afl-fuzz -n -i "$folder/seeds" -o "$folder/$command" -V "$seconds" -t 2000 -m none -- "$ompc" $command @@ < /dev/null > "$folder/log" 2>&1 || {
        tail -20 "$folder/log"
        exit 1
    }
    out=$folder/$command
    if [ -d "$out/default" ]; then out=$out/default; fi
    # a text that hung is run once more alone: beside other work any may take two seconds
    for text in "$out"/hangs/id:*; do
        if [ -e "$text" ] && { timeout 10 "$ompc" $command "$text" < /dev/null > /dev/null 2>&1 || [ $? != 124 ]; }; then
            rm "$text"
        fi
    done
    printf '%s: %d s, %d killed, %d hung\n' "$command" "$seconds" \
        "$(find "$out/crashes" -name 'id:*' | wc -l)" "$(find "$out/hangs" -name 'id:*' | wc -l)"
    for text in "$out"/crashes/id:* "$out"/hangs/id:*; do
        if [ -e "$text" ]; then
            cp "$text" "found_$command$((found += 1)).c"
            printf '  see found_%s%d.c\n' "$command" "$found"
        fi
    done
done
