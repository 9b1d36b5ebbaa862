#!/usr/bin/env python3
"""Counts the instructions that a line costs: `line.py [PROGRAM]`.

PROGRAM is `bin/heapdbg` if it isn't given. Sessions of 200,000 lines of `generate.py` and one without lines run under
valgrind's callgrind, and their instructions are compared. Those of the kernel, as in reading and writing, aren't counted."""
import os
import re
import subprocess
import sys
import tempfile

HERE = os.path.dirname(os.path.abspath(__file__))
COUNT = 200_000
KINDS = (("mixed", 8), ("puts", 16), ("cycles", 256))
TOTAL = re.compile(rb"^(?:summary|totals): (\d+)", re.MULTILINE)


def instructions(program, regions, lines):
    """Returns how many instructions a session of these lines takes."""
    with tempfile.TemporaryDirectory() as folder:
        out = os.path.join(folder, "out")
        tool = ["valgrind", "--tool=callgrind", f"--callgrind-out-file={out}", "--log-file=/dev/null"]
        words = [program, "run", "--regions", str(regions)]
        subprocess.run([*tool, *words], input=lines, stdout=subprocess.DEVNULL, check=True)
        with open(out, "rb") as told:
            return int(TOTAL.search(told.read())[1])


def main():
    program = sys.argv[1] if len(sys.argv) > 1 else os.path.normpath(os.path.join(HERE, "..", "bin/heapdbg"))
    generate = os.path.join(HERE, "generate.py")
    for kind, regions in KINDS:
        lines = subprocess.run([sys.executable, generate, kind, str(COUNT)], stdout=subprocess.PIPE, check=True).stdout
        count = lines.count(b"\n")
        cost = instructions(program, regions, lines) - instructions(program, regions, b"")
        print(f"{kind}, {count} lines, {regions} regions: {cost / count:.1f} instructions a line")


if __name__ == "__main__":
    main()
