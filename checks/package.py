#!/usr/bin/env python3
"""Packs the built programs by `make dist`, from a copy of this repository with a history of its own: `package.py PROGRAM IMPORT`.

Looks whether what is packed runs and is accounted for, and whether nothing is packed but the program that passed `make
test` at the commit that the files are. Prints a line for each thing that is otherwise, and ends with status 1 if there is one; prints
nothing where all is well."""
import hashlib
import os
import pathlib
import re
import shutil
import subprocess
import sys

from installed import REPLIES, answered, copied, make

OTHER = "/bin/true"
AUTHOR = ("-c", "user.name=A", "-c", "user.email=a@example.org", "-c", "core.hooksPath=/dev/null")


def git(folder, *words):
    """Runs git in a folder, and returns what it said."""
    ran = subprocess.run(["git", *AUTHOR, *words], cwd=folder, capture_output=True, text=True, check=True)
    return ran.stdout.strip()


def committed(folder):
    """Makes a commit of all files, and returns its name."""
    git(folder, "add", "--all")
    git(folder, "commit", "--quiet", "--allow-empty", "--message", "All")
    return git(folder, "rev-parse", "HEAD")


def dist(folder, *words):
    """Does the first or the last step of `make test`."""
    subprocess.run(["bash", "scripts/dist.sh", *words], cwd=folder, check=True)


def passed(folder, programs):
    """Does what `make test` does before and after it looks at the programs."""
    dist(folder, "begin")
    dist(folder, "passed", *programs)


def archives(folder):
    """Returns the archives that are there."""
    return list((folder / "dist").glob("*.tar.gz"))


def packed(folder, programs, commit):
    """Yields what is wrong with what is packed after `make test`."""
    status, said = make(folder, "dist")
    found = archives(folder)
    if status or len(found) != 1:
        yield f"make dist: status {status}, {said}"
        return
    shutil.unpack_archive(found[0], folder.parent)
    top = folder.parent / found[0].name.removesuffix(".tar.gz")
    found[0].unlink()
    if answered(top / "bin/heapdbg", "run") != REPLIES:
        yield "the packed program answers the example otherwise"
    if not (top / "bin/heapdbg-import").exists():
        yield "the package has no heapdbg-import"
    if not (top / "share/doc/heapdbg/examples/leak.session").exists():
        yield "the package has no examples"
    account = (top / "PROVED").read_text().split("\n")
    program, importer = (hashlib.sha256(pathlib.Path(each).read_bytes()).hexdigest() for each in programs)
    if not {f"commit {commit}", f"program {program}", f"import {importer}"} < set(account):
        yield f"PROVED is {account}"


def refused(folder, name, wanted):
    """Yields what is wrong if `make dist` doesn't refuse, and say why."""
    status, said = make(folder, "dist")
    if not status or not said.startswith("make dist: ") or wanted not in said or archives(folder):
        yield f"{name}: make dist has status {status}, says {said!r}, and leaves {archives(folder)}"


def steps(folder):
    """Yields what is wrong if the note of `make test` isn't taken back by its first step, and written by its last."""
    rule = re.search(r"^test:.*\n((?:\t.*\n)+)", (folder / "Makefile").read_text(), re.MULTILINE)[1].split("\n")[:-1]
    noting = [at for at, step in enumerate(rule) if "dist.sh" in step]
    if noting != [0, len(rule) - 1] or "dist.sh begin" not in rule[0] or "dist.sh passed" not in rule[-1]:
        yield f"the first and last steps of `make test` are {rule[0]!r} and {rule[-1]!r}"


def differences(folder, programs):
    """Yields what is wrong, with each thing in turn that keeps a program from being packed."""
    yield from steps(folder)
    built, importer, page = folder / "bin/heapdbg", folder / "bin/heapdbg-import", folder / "README.md"
    yield from refused(folder, "without git", "git names no commit")
    passed(folder, programs)
    yield from refused(folder, "tested without git", "git names no commit")
    git(folder, "init", "--quiet")
    commit = committed(folder)
    yield from refused(folder, "tested before the first commit", "passed at commit none")
    (folder / "bin/tested").unlink()
    yield from refused(folder, "untested", "nothing has been tested")
    passed(folder, programs)
    yield from packed(folder, programs, commit)
    shutil.copy(OTHER, built)
    yield from refused(folder, "another program", "isn't the program that passed")
    built.unlink()
    yield from refused(folder, "no program", "no bin/heapdbg")
    shutil.copy(programs[0], built)
    shutil.copy(OTHER, importer)
    yield from refused(folder, "another converter", "isn't the program that passed")
    shutil.copy(programs[1], importer)
    page.write_text(page.read_text() + "\n")
    yield from refused(folder, "a changed file", "files differ from commit")
    passed(folder, programs)
    committed(folder)
    yield from refused(folder, "tested with changed files", "changed, and this is")
    passed(folder, programs)
    committed(folder)
    yield from refused(folder, "another commit", "and this is")
    dist(folder, "begin")
    committed(folder)
    dist(folder, "passed", *programs)
    yield from refused(folder, "a commit while `make test` runs", "changed, and this is")


def main(*programs):
    """Returns the exit status."""
    with copied(*programs) as folder:
        found = list(differences(folder, programs))
    for line in found:
        print(line)
    return 1 if found else 0


if __name__ == "__main__":
    sys.exit(main(*map(os.path.abspath, sys.argv[1:])))
