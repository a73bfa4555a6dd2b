#!/usr/bin/env python3
"""Expressions in `ompc explain`, and beside gcc.

    bench/expressions.py PROGRAM [SEED] [NUMBER]    random expressions, a hundred to a source
    bench/expressions.py PROGRAM FILE.c..           sources in which each print stands on a line by itself

Of each expression of which `ompc explain` tells nothing gcc's value, converted to `uint64_t`, is to be that of `ompc
run`, and gcc's sanitizer for undefined behaviour silent; of a source, where a value in C is told it is to be gcc's.
"""
import json
import pathlib
import random
import re
import subprocess
import sys
import tempfile

LITERALS = [0, 1, 2, 3, 5, 7, 30, 31, 32, 63, 255, 65535, 65536, 2**31 - 1, 2**31, 2**32 - 1, 2**32, 2**62, 2**63 - 1]
LARGE = [2**63, 2**64 - 1]
SUFFIXES = ["", "", "", "", "u", "l", "ul", "LLU"]
CONSTANTS = ["N", "M", "K", "E", "F"]
HEAD = """#include "ompc.h"
#define N 8
#define M 0xFFFFFFFF
const uint64_t K = 3;
enum { E = 0, F = 70 };
uint64_t A[4] = {0, 1, 4, 9};
int main(void) {
    uint64_t a = 5;
    uint64_t b = 3;
    uint64_t c = 0;
    uint64_t d = 18446744073709551615ul;
    uint64_t e = 1099511627776;
"""
FIRST = HEAD.count("\n") + 1
BINARY = ["|", "^", "&", "==", "!=", "<", "<=", ">", ">=", "+", "-", "*"]
DIVISORS = ["1", "2", "3", "7u", "10", "2147483647", "0x80000000", "K", "N"]
PER_SOURCE = 100


def literal(rnd):
    n = rnd.choice(LITERALS + LARGE) if rnd.random() < 0.7 else rnd.randrange(10)
    suffix = rnd.choice(SUFFIXES)
    if rnd.random() < 0.25:
        return hex(n) + suffix
    return str(n) + (suffix if n < 2**63 or "u" in suffix.lower() else "ul")


def operand(rnd):
    kind = rnd.random()
    if kind < 0.5:
        return literal(rnd)
    return rnd.choice(CONSTANTS) if kind < 0.6 else rnd.choice("abcde")


def expression(rnd, depth):
    if depth == 0 or rnd.random() < 0.1:
        return operand(rnd)
    kind, left = rnd.random(), expression(rnd, depth - 1)
    if kind < 0.55:
        return f"({left}) {rnd.choice(BINARY)} ({expression(rnd, depth - 1)})"
    if kind < 0.67:
        return f"{rnd.choice('!~')}({left})"
    if kind < 0.75:
        return f"({left}) {rnd.choice(['&&', '||'])} ({expression(rnd, depth - 1)})"
    if kind < 0.87:
        return f"({left}) {rnd.choice(['<<', '>>'])} {rnd.choice([0, 1, 2, 5, 20, 30, 31, 32, 33, 40, 60, 63])}"
    if kind < 0.97:
        return f"({left}) {rnd.choice('/%')} {rnd.choice(DIVISORS)}"
    return f"A[({left}) % 4]"


def told_lines(program, source):
    """The lines of which something is told, and the list of what is told."""
    said = subprocess.run([program, "explain", source, "--format", "json"], capture_output=True, text=True, check=False)
    report = json.loads(said.stdout)
    assert report["accepted"], report["diagnostics"]
    return {warning["line"] for warning in report["warnings"]}, report["warnings"]


def values_here(program, source):
    return subprocess.run([program, "run", source], capture_output=True, text=True, check=True).stdout.split()


def values_in_c(folder, source):
    """What gcc prints, and the lines of which its sanitizer speaks."""
    include = pathlib.Path(__file__).parent.parent / "include"
    built = folder / "built"
    words = ["gcc", "-std=c11", "-w", "-O0", "-fno-wrapv", "-fsanitize=undefined", "-I", include, source, "-o", built]
    subprocess.run(words, check=True)
    ran = subprocess.run([built], capture_output=True, text=True, check=True)
    lines = {int(found[1]) for found in re.finditer(r"\.c:(\d+):\d+: runtime error", ran.stderr)}
    return ran.stdout.split(), lines


def compare(program, folder, expressions):
    source = folder / "expressions.c"
    body = "".join(f"    print({text});\n" for text in expressions)
    source.write_text(HEAD + body + "}\n")
    told, warnings = told_lines(program, source)
    here, (there, undefined) = values_here(program, source), values_in_c(folder, source)
    bad = 0
    for number, text in enumerate(expressions):
        line = FIRST + number
        if line not in told and (here[number] != there[number] or line in undefined):
            print(f"{text}: here {here[number]}, in C {there[number]}{', undefined' if line in undefined else ''}")
            bad += 1
    same = sum(here[n] == there[n] and FIRST + n not in undefined for n in range(len(expressions)) if FIRST + n in told)
    return len(told), same, bad, len(warnings)


def told_part(text, column):
    """The operator at that column with its operands, where these are single words."""
    before, behind = text[:column - 1], text[column - 1:]
    left = re.search(r"(\w+) *$", before)
    if behind[0] in "~!":
        found = re.match(r"[~!] *\w+", behind)
        return found and found[0]
    right = re.match(r"(<<|>>|[-+*/%&|^]) *\w+", behind)
    return left and right and left[0] + right[0]


def told_values(source, warnings):
    """The parts of expressions of which a value in C is told, each with that value modulo 2 ^ 64."""
    lines, values = pathlib.Path(source).read_text().split("\n"), {}
    for warning in warnings:
        value = re.match(r"in C this has type `[^`]*`, and is (-?\d+)(;|$)", warning["message"])
        part = told_part(lines[warning["line"] - 1], warning["column"])
        if value and part:
            values[part] = int(value[1]) % 2**64
    return values


def printing(source, expressions):
    """The source with these expressions printed in place of its own."""
    lines = pathlib.Path(source).read_text().split("\n")
    kept = [line for line in lines if not line.startswith("    print(") and line != "}" and line]
    return "\n".join(kept + [f"    print({text});" for text in expressions] + ["}", ""])


def compare_source(program, folder, source):
    """How many expressions a source prints, of how many parts a value in C is told, and how many are not as told."""
    lines = [n for n, text in enumerate(pathlib.Path(source).read_text().split("\n"), 1) if text.startswith("    print(")]
    told, warnings = told_lines(program, source)
    here, (there, undefined) = values_here(program, source), values_in_c(folder, source)
    assert len(lines) == len(here) == len(there), source
    bad = 0
    for line, mine, its in zip(lines, here, there):
        if line not in told and (mine != its or line in undefined):
            print(f"{source}:{line}: here {mine}, in C {its}")
            bad += 1
    values, parts = told_values(source, warnings), folder / "parts.c"
    parts.write_text(printing(source, values))
    for (text, value), its in zip(values.items(), values_in_c(folder, parts)[0], strict=True):
        if value != int(its):
            print(f"{source}: {text}: told {value}, in C {its}")
            bad += 1
    return len(lines), len(values), bad


def compare_sources(program, sources):
    with tempfile.TemporaryDirectory() as name:
        counts = [compare_source(program, pathlib.Path(name), source) for source in sources]
    printed, known, bad = (sum(column) for column in zip(*counts))
    print(f"{printed} expressions beside gcc, and {known} parts of which the value in C is told: {bad} differ")
    sys.exit(bad > 0)


def compare_random(program, seed="1", number="10000"):
    rnd = random.Random(int(seed))
    told = same = bad = warnings = 0
    with tempfile.TemporaryDirectory() as name:
        for _ in range(0, int(number), PER_SOURCE):
            texts = [expression(rnd, rnd.choice([1, 2, 2, 3, 3, 4])) for _ in range(PER_SOURCE)]
            one = compare(program, pathlib.Path(name), texts)
            told, same, bad, warnings = told + one[0], same + one[1], bad + one[2], warnings + one[3]
    print(f"{number} expressions: {warnings} warnings, of {told} of them, of which {same} are the same here and by gcc;")
    print(f"of those of which nothing is told {bad} differ")
    sys.exit(bad > 0)


if sys.argv[2:] and sys.argv[2].endswith(".c"):
    compare_sources(sys.argv[1], sys.argv[2:])
else:
    compare_random(*sys.argv[1:])
