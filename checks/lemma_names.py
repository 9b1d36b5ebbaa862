#!/usr/bin/env python3
"""Counts the names of lemmas that stand in several proof files: fewer than 100 may. `lemma_names.py list` prints them all.

Prints a line if there are more, and ends with status 1 then. Left out are the names that the prover gives in the files of a
function's proof, such as `returns` and `loop-i-preserved`."""
import collections
import pathlib
import re
import sys

TOP = pathlib.Path(__file__).resolve().parent.parent
MOST = 99
LEMMA = re.compile(r"(?m)^(?:pub )?(?:abbrev )?([^\s:(){}=]+) : ")
OF_FUNCTIONS = ("Answers.antt", "Invariants.antt", "Proof.antt")
GIVEN = re.compile(r"returns|invariant_of|loop-|.*-requires|.*_spec$|module$|unfoldable$|ghosts-|goal$")


def shared_names():
    """Returns the names that stand in several files, each with these files."""
    files = collections.defaultdict(set)
    for file in TOP.glob("crates/*/proofs/**/*.antt"):
        for name in LEMMA.findall(file.read_text()):
            if not (file.name in OF_FUNCTIONS and GIVEN.match(name)):
                files[name].add(str(file.relative_to(TOP / "crates")))
    return {name: sorted(found) for name, found in files.items() if len(found) > 1}


def main(lists):
    """Returns the exit status."""
    names = shared_names()
    if lists:
        for name, files in sorted(names.items(), key=lambda each: (-len(each[1]), each[0])):
            print(name, *files)
    elif len(names) > MOST:
        print(f"{len(names)} names of lemmas stand in several files; at most {MOST} may (checks/lemma_names.py list)")
    return 0 if lists or len(names) <= MOST else 1


if __name__ == "__main__":
    sys.exit(main(sys.argv[1:] == ["list"]))
