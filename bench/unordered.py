#!/usr/bin/env python3
"""What `check` takes beside the rest of `step` on kernels whose turns may run in any order: processor time of whole runs, the
least of some, without what the program takes for an empty source. A time of wall clock would tell nothing of a millisecond.

usage: unordered.py OMPC
"""
import os
import subprocess
import sys
import tempfile

RUNS = 12
ARRAYS = "uint64_t A[65536];\nuint64_t B[65536];\nuint64_t C[65536];\nint main(void) {\n"


def kernel(words, loops):
    return f"{ARRAYS}#pragma omp target teams distribute parallel for {words}\n{loops}\n}}\n"


def nest(*ends):
    return " ".join(f"for (uint64_t {name} = 0; {name} < {end}; {name} += 1) {{" for name, end in zip("ijk", ends))


SOURCES = {
    "each cell": kernel("", f"{nest(65535)} A[i] = B[i + 1] * 3 + C[i]; }}"),
    "each third": kernel("", f"{nest(21845)} C[3 * i + 2] = B[i + 1] + C[3 * i]; }}"),
    "rows": kernel("", f"{nest(256, 256)} A[256 * i + j] = B[256 * j + i] + 1; }} }}"),
    "transposed": kernel("collapse(2)", f"{nest(256, 256)} B[256 * j + i] = A[256 * i + j]; }} }}"),
    "matrices": kernel(
        "collapse(2)", f"{nest(100, 100, 100)} C[100 * i + j] = C[100 * i + j] + A[100 * i + k] * B[100 * k + j]; }} }} }}"
    ),
    "scattered": kernel("", f"{nest(65536)} A[(i * 40503) % 65536] = B[i] + 1; }}"),
    "1,000 sweeps": ARRAYS
    + "#pragma omp target data map(tofrom: A, B)\nfor (uint64_t k = 0; k < 1000; k += 1) {\n"
    + "#pragma omp target teams distribute parallel for\n"
    + "for (uint64_t i = 1; i < 65535; i += 1) { B[i] = A[i - 1] + A[i + 1] + k; }\n"
    + "#pragma omp target teams distribute parallel for\nfor (uint64_t i = 1; i < 65535; i += 1) { A[i] = B[i]; }\n}\n}\n",
}


def milliseconds(ompc, command, file):
    """Returns the least processor time of some runs."""

    def once():
        started = subprocess.Popen(
            [ompc, command, file], stdin=subprocess.DEVNULL, stdout=subprocess.DEVNULL, stderr=subprocess.DEVNULL
        )
        _, status, used = os.wait4(started.pid, 0)
        if status:
            sys.exit(f"{command} {file} ended with status {status}")
        return used.ru_utime + used.ru_stime

    return 1000 * min(once() for _ in range(RUNS))


def main():
    ompc = os.path.realpath(sys.argv[1])
    with tempfile.TemporaryDirectory() as folder:

        def written(text):
            with open(f"{folder}/source.c", "w", encoding="utf-8") as file:
                file.write(text)
            return file.name

        none = {it: milliseconds(ompc, it, written("int main(void) { }\n")) for it in ("check", "step")}
        for name, text in SOURCES.items():
            file = written(text)
            check, step = (milliseconds(ompc, it, file) - none[it] for it in ("check", "step"))
            print(f"{name:12} check {check:7.2f} ms, rest of step {step - check:7.2f} ms")


main()
