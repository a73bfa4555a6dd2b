#!/usr/bin/env bash
# Every benchmark, one after the other. The argument is the built program.
set -eu
ompc=$(realpath "$1")
cd "$(dirname "$0")"
for script in list check read region copies run items fine explain; do
    echo "== $script"
    "./$script.sh" "$ompc"
done
echo "== unordered"
./unordered.py "$ompc"
echo "== expressions"
./expressions.py "$ompc"
