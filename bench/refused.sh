#!/usr/bin/env bash
# Runs a built program again and again, each time with one of its allocations refused, and counts what came of it. The words are the
# program and its own. It fails where anything came but the right output, or status 3 and `F1`, or `F5` where a thread is started.
set -eu
folder=$(mktemp -d)
trap 'rm -r "$folder"' EXIT
gcc -O2 -shared -fPIC -o "$folder/refuse.so" "$(dirname "$0")/refuse.c" -ldl
"$@" > "$folder/right" < /dev/null
for ((number = 1; ; number += 1)); do
    rm -f "$folder/mark"
    status=0
    MARK="$folder/mark" REFUSE=$number LD_PRELOAD="$folder/refuse.so" "$@" > "$folder/out" 2> "$folder/err" < /dev/null || status=$?
    [ -e "$folder/mark" ] || break
    fault=$(head -1 "$folder/err")
    if cmp -s "$folder/right" "$folder/out"; then
        echo 'the same output'
    elif [[ $status = 3 && $fault = F[15] ]]; then
        echo "status 3, $(wc -c < "$folder/out") bytes printed, $fault"
    else
        echo "WRONG: allocation $number, status $status, $fault"
    fi
done | sort | uniq -c | tee "$folder/came"
! grep -q WRONG "$folder/came"
