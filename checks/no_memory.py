#!/usr/bin/env python3
"""Fails where code makes the answer "no memory" anywhere but where no_memory.txt lists it, or no longer there.

No contract tells whether memory was really refused, so each line that makes it has to follow a refused allocation. Such a line is
told by its file, its function, the line that opens its block (the allocation, mostly) and its own line. Run it at the top."""
import pathlib
import re
import sys

TESTS = ("heap_tests", "hprof_tests", "dominator_tests")
MAKES = re.compile(r"\b(NoMemory|Memory)\b|\(AllocError\)|\bAllocError\.|\bAllocFailed \{")
PLACES = pathlib.Path(__file__).with_suffix(".txt")


def without_tests(lines):
    """Blanks the items under #[cfg(test)]."""
    skipping, depth = False, 0
    for line in lines:
        skipping = skipping or line.strip() == "#[cfg(test)]"
        yield "" if skipping else line
        if skipping and not line.strip().startswith("#["):
            depth += line.count("{") - line.count("}")
            skipping = depth > 0


def without_contracts(lines):
    """Blanks comments, texts, clauses and ghost items."""
    depth = 0
    for line in lines:
        line = re.sub(r'"[^"]*"', '""', line).split("//")[0].rstrip()
        clause = depth > 0 or re.match(r"\s*(requires|ensures|ghost)\b", line)
        depth += line.count("{") - line.count("}") if clause else 0
        yield "" if clause else line


def opening(lines, at):
    """The nearest line above that is indented less."""
    indent = len(lines[at]) - len(lines[at].lstrip())
    above = (line for line in reversed(lines[:at]) if line and len(line) - len(line.lstrip()) < indent)
    return next(above, "").strip()


def function(lines, at):
    """The name of the function that a line stands in."""
    names = (re.search(r"\bfn (\w+)", line) for line in reversed(lines[: at + 1]))
    return next((name[1] for name in names if name), "none")


def places(file):
    """The lines of a file that make the answer; a pattern, or a variant's declaration, makes none."""
    lines = list(without_contracts(without_tests(file.read_text().splitlines())))
    for at, line in enumerate(lines):
        code = line.split("=>", 1)[-1]
        if MAKES.search(code) and not re.fullmatch(r"\s*(NoMemory|Memory),", line):
            name = file.relative_to("crates").as_posix()
            yield " | ".join((name, function(lines, at), opening(lines, at), line.strip()))


def main():
    files = sorted(pathlib.Path("crates").glob("*/src/**/*.rt"))
    files = [file for file in files if file.parts[1] not in TESTS and file.name != "tests.rt"]
    found = [place for file in files for place in places(file)]
    listed = [line for line in PLACES.read_text().splitlines() if line and line[0] != "#"]
    new, gone = [p for p in found if p not in listed], [p for p in listed if p not in found]
    for place in new:
        print("not listed:", place)
    for place in gone:
        print("gone:", place)
    twice = sorted({p for p in found if found.count(p) != listed.count(p)} - set(new))
    for place in twice:
        print("another time:", place)
    return 1 if new or gone or twice else 0


if __name__ == "__main__":
    sys.exit(main())
