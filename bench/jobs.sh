#!/usr/bin/env bash
# Five ways in which jobs may come to worker threads, beside one another (`bench/jobs.rs`, compiled with `rustc -O`).
set -eu
here=$(dirname "$(realpath "$0")")
folder=$(mktemp -d)
trap 'rm -r "$folder"' EXIT
rustc -O -o "$folder/jobs" "$here/jobs.rs"
"$folder/jobs"
