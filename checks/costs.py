#!/usr/bin/env python3
"""Looks whether a question takes far more of the processor's time than it may: `costs.py [-v] PROGRAM`.

Asks each question about a heap of 65,000 objects, a list, a tree and nodes with links at random, with 65,536 retained steps. A
question may take five times what it should, so that only another form of its search fails; `bench/questions.py` tells what it
takes. The program is killed after ten minutes on the clock. Prints a line for each question that takes more or is refused, with
-v one for each question, and one for each keyword of `help` with which nothing is asked. Ends with status 1 if there is one."""
import os
import sys
import tempfile

from large_heaps import LargeHeap, most_of

TIMES, OBJECTS = 5, 65_000
# The seconds on the clock after which the program is killed.
LIMIT = 600


def main(program, verbose):
    """Returns the exit status."""
    status = 0
    with tempfile.TemporaryDirectory() as folder:
        heap = LargeHeap(program, "mixed", OBJECTS, folder, LIMIT)
        for word in heap.unasked():
            print(f"no line of checks/large_heaps.py asks {word}")
            status = 1
        for name, line in heap.lines():
            end, size, seconds = heap.ask(line)
            wrong = seconds > TIMES * most_of(name) or not end[-1].startswith("ok")
            if wrong or verbose:
                print(f"{name}: {1000 * seconds:.1f} ms of at most {1000 * TIMES * most_of(name):.0f}, {size:,} bytes, {end[-1]}")
            status |= wrong
        heap.close()
    return status


if __name__ == "__main__":
    words = [word for word in sys.argv[1:] if word != "-v"]
    sys.exit(main(os.path.abspath(words[0]), "-v" in sys.argv))
