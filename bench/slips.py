#!/usr/bin/env python3
"""Puts one slip into a directive of sources that are accepted, and measures how many of the programs that come of it are
refused, how many of these `fix` mends, and how many are accepted once the last help of `explain --format json` was
followed, again and again.

usage: slips.py [--fix-only] [--left FOLDER] OMPC FILE.c..

A slip: a directive or a clause that is left out, `depend`, `always` or `device` among them; another map type; a section
that is shorter by one; the other direction of an update; a `nowait` more. A program that is no more read, or has a fault
of range, is refused by other rules and is not counted. Prints a line for each kind: how many were made, refused, mended
by `fix`, and by the helps (up to 8), and of these two the share in percent of those refused. With --left the sources that
`fix` does not mend are written to that folder; with --fix-only no help is followed.
"""
import collections
import json
import os
import re
import subprocess
import sys
import tempfile

MOST_HELPS = 8
SECONDS = 120
DIRECTIVE = re.compile(r"^[ \t]*#[ \t]*pragma[ \t]+omp\b(?:[^\n]*\\\n)*[^\n]*\n", re.M)
KIND = re.compile(r"\bomp\s+(taskwait|target\s+(?:enter|exit)\s+data|target\s+data|target\s+update|target)\b")
CLAUSE = re.compile(r"\s+(map|depend|device|nowait|to|from)\b(\((?:[^()]|\([^()]*\))*\))?")
TYPE = re.compile(r"\bmap\(\s*(?:(?:always|present)\s*,\s*)*(\w+)(?=\s*:)")
TYPES = {
    "target": ["to", "from", "tofrom", "alloc"],
    "target data": ["to", "from", "tofrom", "alloc"],
    "target enter data": ["to", "alloc"],
    "target exit data": ["from", "release", "delete"],
}
TAKE_NOWAIT = ("target", "target enter data", "target exit data", "target update")


def replaced(text, first, end, new):
    return text[:first] + new + text[end:]


def kind_of(line):
    found = KIND.search(line)
    return re.sub(r"\s+", " ", found[1]) if found else ""


def without_directive(line, kind):
    # what stands behind a `target` is its kernel; the block of a `target data` stays as a block
    if kind and kind != "target":
        yield f"drop {kind}", ""


def without_clauses(line, kind):
    for it in CLAUSE.finditer(line):
        if it[1] not in ("to", "from") or kind == "target update":
            yield f"drop {it[1]}", replaced(line, it.start(), it.end(), "")
    for it in re.finditer(r"\balways\s*,\s*", line):
        yield "drop always", replaced(line, it.start(), it.end(), "")


def other_types(line, kind):
    for it in TYPE.finditer(line):
        for other in TYPES.get(kind, []):
            if other != it[1]:
                yield f"{kind} {it[1]} as {other}", replaced(line, it.start(1), it.end(1), other)


def shorter_sections(line, kind):
    for it in re.finditer(r"\[([^\[\]:]*):\s*(\d+)\]", line):
        if int(it[2]) > 1:
            yield "shorter by one", replaced(line, it.start(2), it.end(2), str(int(it[2]) - 1))


def other_directions(line, kind):
    if kind == "target update":
        for it in re.finditer(r"\b(to|from)(?=\()", line):
            yield "other direction", replaced(line, it.start(), it.end(), {"to": "from", "from": "to"}[it[1]])


def with_nowait(line, kind):
    if kind in TAKE_NOWAIT and "nowait" not in line:
        yield "add nowait", line.rstrip("\n") + " nowait\n"


SLIPS = [without_directive, without_clauses, other_types, shorter_sections, other_directions, with_nowait]


def slips(text):
    """The texts with one slip, each once, with its kind."""
    seen = {text}
    for it in DIRECTIVE.finditer(text):
        kind = kind_of(it[0])
        for name, line in (made for make in SLIPS for made in make(it[0], kind)):
            made = replaced(text, it.start(), it.end(), line)
            if made not in seen:
                seen.add(made)
                yield name, made


class Program:
    """The program that is measured."""

    def __init__(self, path, room):
        self.path, self.file = path, os.path.join(room, "slip.c")

    def ask(self, text, *words):
        with open(self.file, "w", encoding="utf-8") as out:
            out.write(text)
        words = [self.path, *words, self.file]
        how = {"stdin": subprocess.DEVNULL, "capture_output": True, "text": True, "errors": "replace"}
        try:
            ran = subprocess.run(words, timeout=SECONDS, **how)
        except subprocess.TimeoutExpired:
            return -1, "", ""
        return ran.returncode, ran.stdout, ran.stderr

    def is_accepted(self, text):
        return self.ask(text, "check")[0] == 0

    def is_refused(self, text):
        """Whether a text is read and refused, by another code than one of range."""
        status, _, told = self.ask(text, "check")
        return status == 1 and re.match(r"E50\d|E510", told) is not None

    def is_fixed(self, text):
        status, made, _ = self.ask(text, "fix")
        return status == 0 and self.is_accepted(made)

    def is_helped(self, text):
        for _ in range(MOST_HELPS):
            status, told, _ = self.ask(text, "explain", "--format", "json")
            if status == 0:
                return True
            try:
                notes = json.loads(told)["diagnostics"][0]["notes"]
            except (ValueError, LookupError):
                return False
            helps = [it for it in notes if it["kind"] == "help"]
            text = followed(text, helps[-1]) if helps else None
            if text is None:
                return False
        return self.is_accepted(text)


def with_type(line, column, found):
    """Another type or direction in the clause around a column: the last word of that name up to the item, else the first one behind it."""
    words = [it.start() for it in re.finditer(rf"\b{re.escape(found[2])}\b", line)]
    if not words:
        return None
    at = max([it for it in words if it <= column], default=words[0])
    return replaced(line, at, at + len(found[2]), found[1])


def with_section(line, column, found):
    """Another section in the place of the one at a column."""
    item = re.compile(r"\w+(?:\[[^\]]*\])*").match(line, column)
    return replaced(line, item.start(), item.end(), found[1]) if item else None


def with_clause(line, column, found):
    return f"{line} {found[1]}" if "#pragma" in line else None


ON_THE_LINE = [
    (re.compile(r"write `([^`]+)` in place of `([^`]+)` here"), with_type),
    (re.compile(r"(?:name|widen the section here to|enter all of) `?(\w+\[[^\]]*\]|\w+)`?"), with_section),
    (re.compile(r"(?:write|add) `((?:map|depend|device)\([^`]*)`"), with_clause),
]


def followed(text, note):
    """The text with what a help says done at its place; none where it names nothing to write."""
    lines = text.split("\n")
    place, column, message = note["line"] - 1, note["column"] - 1, note["message"]
    line = lines[place]
    for pattern, make in ON_THE_LINE:
        found = pattern.search(message)
        if found:
            made = make(line, column, found)
            return None if made is None else "\n".join(lines[:place] + [made] + lines[place + 1 :])
    found = re.search(r"`#pragma omp ([^`]+)`", message)
    if not found:
        return None
    where = place + 1 if re.search(r"\b(?:after|behind) this", message) else place
    indent = line[: len(line) - len(line.lstrip())]
    return "\n".join(lines[:where] + [f"{indent}#pragma omp {found[1]}"] + lines[where:])


def percent(part, whole):
    return f"{100 * part // whole:5}" if whole else "    -"


def table(counts):
    yield f"{'slip':36}{'made':>7}{'refused':>9}{'fixed':>7}{'%':>6}{'helped':>8}{'%':>6}"
    for name, it in sorted(counts.items(), key=lambda pair: (pair[0] == "all", pair[0])):
        fixed, helped = percent(it["fixed"], it["refused"]), percent(it["helped"], it["refused"])
        yield f"{name:36}{it['made']:7}{it['refused']:9}{it['fixed']:7} {fixed}{it['helped']:8} {helped}"


def tried(program, name, made, fix_only):
    """What comes of a slip."""
    if not program.is_refused(made):
        return {"made": 1}
    helped = not fix_only and program.is_helped(made)
    return {"made": 1, "refused": 1, "fixed": int(program.is_fixed(made)), "helped": int(helped)}


def measure(program, path, counts, left, fix_only):
    with open(path, encoding="utf-8") as file:
        text = file.read()
    if not program.is_accepted(text):
        print(f"{path}: not accepted", file=sys.stderr)
        return
    stem = os.path.splitext(os.path.basename(path))[0]
    for number, (name, made) in enumerate(slips(text)):
        found = tried(program, name, made, fix_only)
        counts[name].update(found)
        counts["all"].update(found)
        if left and "refused" in found and not found["fixed"]:
            with open(f"{left}/{stem}.{number}.{name.replace(' ', '_')}.c", "w", encoding="utf-8") as out:
                out.write(made)


def main(words):
    fix_only = "--fix-only" in words
    left = words[words.index("--left") + 1] if "--left" in words else None
    names = [it for it in words if it not in ("--fix-only", "--left", left)]
    if len(names) < 2:
        sys.exit(__doc__)
    counts = collections.defaultdict(collections.Counter)
    with tempfile.TemporaryDirectory(prefix="slips-") as room:
        program = Program(os.path.abspath(names[0]), room)
        for path in names[1:]:
            measure(program, path, counts, left, fix_only)
    print("\n".join(table(counts)))


if __name__ == "__main__":
    main(sys.argv[1:])
