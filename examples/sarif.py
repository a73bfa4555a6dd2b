#!/usr/bin/env python3
"""Looks at what `explain --format sarif` prints of each example, from outside: that it has what the schema of SARIF 2.1.0 requires, with places that are
in the file, and that the first fix, done by hand as the standard says (section 3.55), gives what `ompc fix` prints. The argument is the built program."""
import json
import pathlib
import re
import subprocess
import sys

LEVELS = {"none", "note", "warning", "error"}


def is_text(value):
    return isinstance(value, str) and value != ""


def check_region(region, lines):
    """A region that begins at a line and column of the file, or just past its end, and ends in that line."""
    line, column = region["startLine"], region["startColumn"]
    assert 1 <= line <= len(lines) + 1 and column >= 1, region
    assert region["endLine"] == line and region["endColumn"] >= column, region
    if line <= len(lines):
        assert region["endColumn"] <= len(lines[line - 1]) + 1, region


def check_location(location, lines):
    place = location["physicalLocation"]
    assert re.fullmatch(r"([A-Za-z0-9._~/!$&'()*+,;=@-]|%[0-9A-F]{2})+", place["artifactLocation"]["uri"]), place
    check_region(place["region"], lines)


def fixed(lines, change):
    """The lines with the replacements of a change, from the last to the first: a region without an end goes to the end of its line (section 3.30)."""
    lines = list(lines)
    # (of two at one place the first one stands first)
    for replacement in reversed(sorted(change["replacements"], key=lambda it: it["deletedRegion"]["startLine"])):
        region = replacement["deletedRegion"]
        text = replacement.get("insertedContent", {}).get("text", "")
        first, last = region["startLine"], region.get("endLine", region["startLine"])
        begin = region.get("startColumn", 1) - 1
        end = region.get("endColumn", len(lines[last - 1]) + 1 if last <= len(lines) else 1) - 1
        rest = lines[last - 1][end:] if last <= len(lines) else ""
        before = lines[first - 1][:begin] if first <= len(lines) else ""
        lines[first - 1 : last] = (before + text + rest).split("\n")
    return lines


def check_result(result, rules, lines):
    assert is_text(result["message"]["text"]), result
    assert result.get("level", "warning") in LEVELS, result
    assert result["ruleId"] in rules, result
    for location in result["locations"] + result.get("relatedLocations", []):
        check_location(location, lines)
    for fix in result.get("fixes", []):
        for change in fix["artifactChanges"]:
            assert is_text(change["artifactLocation"]["uri"]), change
            assert change["replacements"], change


def check_log(log, lines):
    """The results of a log."""
    assert log["version"] == "2.1.0", log["version"]
    (run,) = log["runs"]
    assert run["columnKind"] == "unicodeCodePoints", run["columnKind"]
    driver = run["tool"]["driver"]
    assert is_text(driver["name"]), driver
    rules = {rule["id"] for rule in driver.get("rules", [])}
    for result in run["results"]:
        check_result(result, rules, lines)
    return run["results"]


def output(*words):
    return subprocess.run(words, capture_output=True, check=False)


def main(program):
    folder = pathlib.Path(__file__).parent
    fixes = 0
    sources = sorted(folder.glob("*.c")) + sorted(folder.glob("refused/*.c"))
    for source in sources:
        text = source.read_bytes().decode("utf-8")
        lines = text.removesuffix("\n").split("\n")
        results = check_log(json.loads(output(program, "explain", source, "--format", "sarif").stdout), lines)
        for result in results[:1]:
            for fix in result.get("fixes", []):
                wanted = output(program, "fix", source).stdout.decode("utf-8").removesuffix("\n").split("\n")
                assert fixed(lines, fix["artifactChanges"][0]) == wanted, (source, fixed(lines, fix["artifactChanges"][0]), wanted)
                fixes += 1
    print(f"{len(sources)} logs have what the schema requires, and {fixes} fixes give what `fix` prints")


main(sys.argv[1])
