#!/usr/bin/env python3
"""Checks the crate in this folder, or a copy of it, over the libraries that `make test` or `make prove` left in this repository.

Usage, in a crate's folder: over_built.py [rattle's flags, such as --only FUNCTION]

`rt check` takes only libraries that `rt check` itself or `make prove` built, and proves all below a crate anew where `make test` alone
has run here. This takes them as they lie in the out/ of each crate, and keeps its own work in the out/ of this folder."""
import os
import pathlib
import subprocess
import sys

TOP = pathlib.Path(__file__).resolve().parent.parent

NEEDS = "Run `make prove` first (or `make test`): there is no library, or an older one, of {}"


def uses():
    """Returns what each crate of this repository uses, as crates.txt has it."""
    lines = [line.partition("#")[0] for line in (TOP / "crates.txt").read_text().splitlines()]
    parts = [line.partition(":") for line in lines if line.strip()]
    return {head.split()[0]: names.split() for head, _, names in parts}


def below(crate):
    """Returns the crates of this repository that a crate stands on."""
    known = uses()
    found, left = set(), [crate]
    while left:
        new = {it for it in known[left.pop()] if it in known} - found
        found |= new
        left += new
    return found


def library(crate):
    """Returns the folder of a crate's library, where a proof of it leaves it."""
    return TOP / "crates" / crate / "out" / "rlib" / f"{crate}.rlib"


def is_built(crate):
    """Tells whether a crate's library is there, and none of its files was touched since it came there."""
    made = library(crate) / "format"
    parts = [TOP / "crates" / crate / part for part in ("src", "specs", "proofs")]
    touched = [it.stat().st_mtime for part in parts for it in part.rglob("*")]
    # What `rt ci` kept comes there as a link to an older file, whose status changes.
    return made.is_file() and max(touched) <= made.stat().st_ctime


def lacking(crates):
    """Returns the crates below these whose libraries have to be built first."""
    return sorted(it for it in set().union(*map(below, crates)) if not is_built(it))


def command(crate, root):
    """Returns the command that checks a crate in its folder, whose root file this is."""
    kit = pathlib.Path(subprocess.run(["rt", "doc"], capture_output=True, text=True, check=True).stdout.strip()).parent
    known = uses()
    words = [f"{kit}/bin/rattle", "check", "--crate-name", crate, root, "-L", f"dependency={kit}/rlibs"]
    for it in below(crate):
        words += ["-L", f"dependency={library(it).parent}"]
    for it in {"std", *known[crate]}:
        words += ["--extern", f"{it}={library(it) if it in known else f'{kit}/rlibs/{it}.rlib'}"]
    words += ["--antt-project", f"{kit}/rattle/logic/antt-project.json", "--logic-built", f"{kit}/logic_built"]
    return [*words, "--links", f"{crate}=", "--jobs", "2", "--incremental", "out/over_built"]


def main(flags):
    """Returns the exit status of the check, or 2 if a library below is missing."""
    crate = pathlib.Path.cwd().name
    if missing := lacking([crate]):
        print(NEEDS.format(", ".join(missing)))
        return 2
    os.makedirs("out/over_built", exist_ok=True)
    root = "src/main.rt" if os.path.exists("src/main.rt") else "src/lib.rt"
    return subprocess.run([*command(crate, root), *flags]).returncode


if __name__ == "__main__":
    sys.exit(main(sys.argv[1:]))
