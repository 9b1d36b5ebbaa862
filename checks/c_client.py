#!/usr/bin/env python3
"""Compiles the client in C with all warnings as errors, and runs its tests, and the example of its README, against a heap that
the built program serves: `c_client.py PROGRAM`.

Prints a line for each thing that is otherwise than it must be, and ends with status 1 if there is one. Prints nothing where all
is well, or where there is no `cc`."""
import dataclasses
import os
import pathlib
import re
import shutil
import subprocess
import sys
import tempfile

from servers import LIMIT, TOP, Server

CLIENT = TOP / "clients/c"
WORDS = ["cc", "-std=c99", "-pedantic", "-Wall", "-Wextra", "-Werror", "-O1", "-I", str(CLIENT)]
WIDE_LINES = ["-DHEAPDBG_LINE_BYTES=32768"]


@dataclasses.dataclass
class Heap:
    """The heap that a client needs: how many sessions it has, its options and the endings of its sessions; and what the client is
    compiled and run with."""

    sessions: int
    options: tuple
    endings: list
    flags: list = dataclasses.field(default_factory=list)
    words: list = dataclasses.field(default_factory=list)


TESTED = Heap(3, ("--keep", "64", "--questions", "1"), ["quit", "quit", "eof"])
WIDE = Heap(1, ("--wide", "1"), ["quit"], WIDE_LINES, ["wide"])
SHOWN = Heap(1, ("--questions", "1"), ["quit"])


def compiled(source, flags, folder):
    """Compiles a source to a program. Returns it, and what the compiler says."""
    program = folder / source.stem
    ran = subprocess.run([*WORDS, *flags, "-o", str(program), str(source)], capture_output=True, text=True)
    return program, ran.stderr if ran.returncode else ""


def ran(server, heap, client):
    """Runs a client of a heap. Returns what it prints, and what is wrong with how the heap's sessions ended."""
    with Server(server, heap.sessions, *heap.options) as served:
        served.waits()
        words = [str(client), str(served.port), *heap.words]
        came = subprocess.run(words, capture_output=True, text=True, timeout=LIMIT * 3)
        said = came.stdout if came.returncode == 0 else f"{came.stdout}status {came.returncode}\n{came.stderr}"
        ended = served.ended()
    return said, "" if ended == (0, heap.endings, b"") else f"the heap ends with {ended}"


def looks(server, source, heap, wanted, folder):
    """Yields what is wrong with a client that must print this."""
    client, said = compiled(source, heap.flags, folder)
    if said:
        yield f"{source.name} doesn't compile: {said}"
        return
    came, ended = ran(server, heap, client)
    if came != wanted:
        yield f"{source.name} prints {came!r}, and must print {wanted!r}"
    if ended:
        yield f"{source.name}: {ended}"


def differences(server):
    """Yields what is wrong with the client."""
    code = re.search(r"```c\n(.*?)```", (CLIENT / "README.md").read_text(), re.DOTALL)[1]
    wanted = "".join(f"{line}\n" for line in re.findall(r"/\* prints: (.*?) \*/", code))
    with tempfile.TemporaryDirectory() as name:
        folder = pathlib.Path(name)
        (folder / "example.c").write_text(code)
        yield from looks(server, folder / "example.c", SHOWN, wanted, folder)
        yield from looks(server, CLIENT / "test_heapdbg.c", TESTED, "", folder)
        yield from looks(server, CLIENT / "test_heapdbg.c", WIDE, "", folder)


def main(server):
    """Returns the exit status."""
    found = list(differences(server)) if shutil.which("cc") else []
    for line in found:
        print(line)
    return 1 if found else 0


if __name__ == "__main__":
    sys.exit(main(os.path.abspath(sys.argv[1])))
