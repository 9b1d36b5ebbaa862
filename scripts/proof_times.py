#!/usr/bin/env python3
"""Prints what the parts of a crate's proof took: `proof_times.py CRATE [COUNT]`, right after `rm -r out/incremental; rt check --jobs 1`
in the crate's folder.

A check leaves a file for each module that it proved, in turn, so the time between two files is what the later one took. `F.Lts`
are the ways through function F: many `?` beside values that have to be dropped make it slow. `F.Proof` are its goals, and a
module that no function has is one of lemmas."""
import os
import pathlib
import sys

TOP = pathlib.Path(__file__).resolve().parent.parent


def parts(folder):
    """Returns the seconds and the name of each module that was proved after another."""
    files = sorted((it.stat().st_mtime_ns, it.name) for it in folder.rglob("*") if it.is_file())
    return [((later - before) / 1e9, name) for (before, _), (later, name) in zip(files, files[1:])]


def main(crate, count):
    """Prints the parts that took longest, and all together."""
    found = parts(TOP / "crates" / crate / "out/incremental")
    for seconds, name in sorted(found, reverse=True)[:count]:
        print(f"{seconds:7.2f} {name.removesuffix('.oantt')}")
    print(f"{sum(seconds for seconds, _ in found):7.2f} in {len(found)} parts")


if __name__ == "__main__":
    main(sys.argv[1], int(sys.argv[2]) if sys.argv[2:] else 20)
