#!/usr/bin/env python3
"""Tries the mutants of crates, of all that have some where none is named: the prover must refuse each.

usage: mutants.py [--apply] [NAME..]

With --apply it checks nothing, and only says which mutants no longer apply to the texts that they change.

A mutant (crates/NAME/mutants/*.edit, written as the edits of must-fail/) is a wrong body of one function. Functions are proved by the
contracts of what they call, so that a check of the crate judges one mutant of each function at once: a round. A function that calls one which
was refused is not judged in that round; its mutant waits for the next. A function whose answers fail for a name alone that the wrong body
has no more, as a local of the right one, tells nothing of a contract: such a mutant does not count as refused, and wants another form.
"""
import collections
import os
import re
import shutil
import subprocess
import sys
import tempfile

TOP = os.path.dirname(os.path.realpath(__file__))
HEAD = re.compile(r"(?:impl(?:<.*?>)? |(?:pub )?trait )(.*)")
NAME_ALONE = re.compile(r"has no field|is not in scope|is no name")
FUNCTION = re.compile(r"( *)(?:pub(?:\([^)]*\))? )?(?:const )?fn (\w+)")


def text_of(path):
    with open(path, encoding="utf-8") as file:
        return file.read()


def pairs_of(mutant):
    """Returns the mutant's changes: file, old text, new text."""
    found, file, old = [], None, None
    for line in text_of(mutant).split("\n"):
        if line.startswith("file: "):
            file = line[len("file: "):].strip()
        elif line.startswith("old: "):
            old = line[len("old: "):]
        elif line.startswith("new:"):
            found.append((file, old, line[len("new:"):].removeprefix(" ")))
    return found


def function_at(text, place):
    """Returns the type (or none) and the name of the function in whose text the place lies, two empty texts where it lies in none."""
    kind, name = "", ""
    for line in text[:place].split("\n"):
        head = HEAD.match(line)
        if head:
            kind = re.sub(r"<.*", "", head[1].split(" for ")[-1]).strip(" {")
        elif line.startswith("}"):
            kind, name = "", ""
        function = FUNCTION.match(line)
        name = function[2] if function else name
    return kind, name


def is_outside(function):
    return not function[2]


def changed(crate, mutant, texts):
    """Returns the texts with the mutant's changes, and the function that it changes first; no texts where it does not apply."""
    texts, function = dict(texts), None
    for file, old, new in pairs_of(mutant):
        path = os.path.join(crate, file)
        was = texts.get(file) or text_of(path)
        if was.count(old) != 1:
            return None, function
        function = function or (file, *function_at(text_of(path), text_of(path).find(old)))
        texts[file] = was.replace(old, new)
    return texts, function


def round_of(crate, mutants):
    """Returns texts with one mutant of each function, the function of each of these mutants, and the mutants that are left. One outside of all functions is alone."""
    texts, taken, left, functions = {}, {}, [], set()
    for mutant in mutants:
        made, function = changed(crate, mutant, texts)
        is_alone = made is not None and (is_outside(function) or any(map(is_outside, functions)))
        if made is None or function in functions or taken and is_alone:
            left.append(mutant)
        else:
            texts, taken[mutant] = made, function
            functions.add(function)
    return texts, taken, left


def verdict_of(said, function):
    """Returns what a check said of a function, or of the crate where the change is outside of all: refused, refused for a name alone, proved, or not judged."""
    file, kind, name = function
    if is_outside(function):
        ends = {"logic=not-proved": "refused", "logic=proved": "proved"}
        # a check of libraries that were checked again comes before the crate's own
        return ends.get((re.findall(r"^(logic=\S+)", said, re.M) or [""])[-1], "not judged")
    module = re.sub(r"^(lib|main)$", "", os.path.basename(file)[:-len(".rt")])
    owner = kind or module
    lines = re.findall(rf"^fn \S*?{owner}\w*::{name}(?:::\S+)?: (.*)$", said, re.M) or re.findall(rf"^fn \S*::{name}: (.*)$", said, re.M)
    if any(line.startswith("no proof: expected") for line in lines):
        return "refused"
    if any(line.startswith("not proved") for line in lines):
        errors = re.findall(rf"^(?:so far: )?\./proofs/(?:\S*/)?{name}/\w+\.antt:\d+:\d+: error: (.*)$", said, re.M)
        return "refused for a name alone" if errors and all(map(NAME_ALONE.search, errors)) else "refused"
    return "proved" if lines and all(line == "proved" for line in lines) else "not judged"


def linked(one, other):
    try:
        os.link(one, other)
    except OSError:
        shutil.copy2(one, other)


def copy_of(room, name):
    """Makes a copy of the repository, with what is built of the other crates, and returns the crate's folder in it."""
    for file in ("crates.txt", "HANDLES"):
        shutil.copy(f"{TOP}/{file}", room)
    for other in filter(lambda it: os.path.isdir(f"{TOP}/crates/{it}"), os.listdir(f"{TOP}/crates")):
        left_out = ["must-fail", "mutants", "data", "incremental", *(["out"] if other == name else [])]
        how = {} if other == name else {"copy_function": linked}
        shutil.copytree(f"{TOP}/crates/{other}", f"{room}/crates/{other}", ignore=shutil.ignore_patterns(*left_out), **how)
    return f"{room}/crates/{name}"


def check(copy, crate, texts):
    """Checks the copy with these texts in place of the crate's own, and returns what was said."""
    for file, text in texts.items():
        with open(os.path.join(copy, file), "w", encoding="utf-8") as out:
            out.write(text)
    ran = subprocess.run(["rt", "check"], cwd=copy, stdin=subprocess.DEVNULL, stdout=subprocess.PIPE, stderr=subprocess.STDOUT, text=True, errors="replace")
    for file in texts:
        shutil.copy(os.path.join(crate, file), os.path.join(copy, file))
    return ran.stdout


def mutants_of(crate):
    return [f"{crate}/mutants/{it}" for it in sorted(os.listdir(f"{crate}/mutants")) if it.endswith(".edit")]


def applied(name):
    """Returns how many mutants of a crate apply to its texts, and those that do not."""
    crate = f"{TOP}/crates/{name}"
    mutants = mutants_of(crate)
    stale = [it for it in mutants if changed(crate, it, {})[0] is None]
    return len(mutants) - len(stale), [f"{it}: does not apply" for it in stale]


def tried(name):
    """Tries the mutants of a crate, and returns how many were refused, and those that were not."""
    crate = f"{TOP}/crates/{name}"
    left = mutants_of(crate)
    refused, passed = 0, []
    with tempfile.TemporaryDirectory(prefix="mutants-") as room:
        copy = copy_of(room, name)
        while left:
            texts, taken, left = round_of(crate, left)
            if not taken:
                return refused, passed + [f"{it}: does not apply" for it in left]
            said = check(copy, crate, texts)
            found = {it: verdict_of(said, function) for it, function in taken.items()}
            counts = collections.Counter(found.values())
            refused += counts["refused"]
            passed += [f"{it}: {found[it]}" for it in found if found[it] in ("proved", "refused for a name alone")]
            waiting = [it for it in found if found[it] == "not judged"]
            if len(waiting) == len(taken):
                return refused, passed + [f"{it}: not judged: {said[-400:]}" for it in waiting]
            left = waiting + left
    return refused, passed


def main(words):
    only_apply = words[:1] == ["--apply"]
    judge, well_said = (applied, "apply") if only_apply else (tried, "refused")
    names = words[only_apply:] or sorted(it for it in os.listdir(f"{TOP}/crates") if os.path.isdir(f"{TOP}/crates/{it}/mutants"))
    well = True
    for name in names:
        good, passed = judge(name)
        print(f"{name}: {good} {well_said}, {len(passed)} not", flush=True)
        for it in passed:
            print(f"  {os.path.relpath(it, TOP)}", flush=True)
        well = well and not passed
    return 0 if well else 1


if __name__ == "__main__":
    sys.exit(main(sys.argv[1:]))
