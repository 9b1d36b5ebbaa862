#!/usr/bin/env python3
"""Counts the instructions that a dump costs for each byte of HPROF, hexadecimal text included: `dumps.py [PROGRAM]`.

PROGRAM is `bin/heapdbg` if it isn't given. Each session runs under callgrind twice, with `dump -` as its last line and without
it; the difference is what the dump costs. Counts are the same on every machine."""
import os
import re
import subprocess
import sys
import tempfile

TOP = os.path.join(os.path.dirname(os.path.abspath(__file__)), "..")
SESSIONS = [
    ("65,536 Points", ["class Point - x:int y:int", *["new 0 0 0"] * 65536]),
    ("256 arrays of 1,024 longs", ["newprim 0 0 long 1024"] * 256),
]


def counted(program, lines):
    """Returns the instructions of a session of these lines, and what it printed."""
    given = "".join(f"{line}\n" for line in lines).encode()
    with tempfile.TemporaryDirectory() as folder:
        words = ["valgrind", "--tool=callgrind", f"--callgrind-out-file={folder}/out", program, "run", "--regions", "256"]
        ran = subprocess.run(words, input=given, capture_output=True, check=True)
    return int(re.search(rb"Collected : (\d+)", ran.stderr)[1]), ran.stdout


def main(program):
    """Prints a line for each session."""
    for name, lines in SESSIONS:
        without, _ = counted(program, lines)
        whole, printed = counted(program, [*lines, "dump -"])
        size = int(re.search(rb"ok dump (\d+)\n$", printed)[1])
        print(f"{name}: {size} bytes, {(whole - without) / size:.1f} instructions a byte")


if __name__ == "__main__":
    main(sys.argv[1] if len(sys.argv) > 1 else os.path.join(TOP, "bin/heapdbg"))
