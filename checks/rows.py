#!/usr/bin/env python3
"""Looks whether each contract that README's table names is there, and is that of a function that the program calls, or a law.

A law is a function without a body. The program is heapdbg with the crates below it, without tests. Prints a line for each name
that is otherwise, and ends with status 1 if there is one; prints nothing where all is well."""
import pathlib
import re
import sys

TOP = pathlib.Path(__file__).resolve().parent.parent
# Crates that are no part of the program: laws about its dumps.
LAWS = {"hprof_image", "hprof_heap"}


def crates_of(program):
    """Returns a crate and those below it, as crates.txt lists them."""
    below = {}
    for line in (TOP / "crates.txt").read_text().split("\n"):
        if ":" in line:
            name, others = line.split(":")
            below[name.split()[0]] = others.split()
    found, wait = {program}, [program]
    while wait:
        new = {each for each in below.get(wait.pop(), []) if each in below} - found
        found |= new
        wait += new
    return found


def without_comments(text):
    """Returns the code of a file: no comments, no clauses of contracts, no imports of definitions."""
    text = re.sub(r"//.*", "", text)
    text = re.sub(r"(?m)^ *(?:ensures|requires|decreases|invariant)\b[^{]*\{(?:[^{}]|\{[^{}]*\})*\}", "", text)
    return re.sub(r"(?m)^ *(?:ghost use|use) .*$", "", text)


def named():
    """Returns the names in the second column of README's table."""
    text = (TOP / "README.md").read_text()
    rows = re.findall(r"^\| .* \| (`.*) \|$", text[text.index("## What is guaranteed") :], re.MULTILINE)
    return [name for row in rows for name in re.findall(r"`([\w:]+)`", row)]


def fault_of(name, sources):
    """Returns what is wrong with a name, or None."""
    word = name.split("::")[-1]
    if any(re.search(rf"^pub (?:struct|enum|trait) {word}\b", text, re.MULTILINE) for text in sources.values()):
        return None
    places = [path for path, text in sources.items() if re.search(rf"\bfn {word}\b", text)]
    parts = name.split("::")[:-1]
    if parts and parts[0].islower():
        places = [path for path in places if path.relative_to(TOP / "crates").parts[0] == parts[0]]
    if not places:
        return "is no function of the program"
    law = re.compile(rf"^pub fn {word}\b(?:(?!\bfn )[^;])*?\n\{{\}}$", re.MULTILINE)
    if any(law.search(path.read_text()) for path in places):
        return None
    calls = re.compile(rf"(?<!fn )\b{word}(?:::<[^>]*>)?\(")
    if not any(calls.search(text) for text in sources.values()):
        return "is called by nothing of the program"
    return None


def main():
    """Returns the exit status."""
    crates = crates_of("heapdbg") | LAWS
    paths = [path for crate in crates for path in (TOP / "crates" / crate / "src").rglob("*.rt")]
    sources = {path: without_comments(path.read_text()) for path in paths}
    names = named()
    found = [f"README.md: {name} {fault}" for name in names if (fault := fault_of(name, sources))]
    if len(names) < 20:
        found.append(f"README.md: the table names {len(names)} contracts")
    print("\n".join(found), end="\n" if found else "")
    return 1 if found else 0


if __name__ == "__main__":
    sys.exit(main())
