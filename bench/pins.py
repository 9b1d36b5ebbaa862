#!/usr/bin/env python3
"""Counts the instructions that lines cost beside open pins, and what pins cost: `pins.py [PROGRAM]`.

PROGRAM is `bin/heapdbg` if it isn't given. Each count is the difference of two sessions under callgrind, so it is the same on every
machine."""
import os
import sys

from dumps import TOP, counted

HEAP = ["class Node - next:object size:int", "new 0 0 0", "new 0 1 0"]
FROZEN = ["put 0 0 1 1"]
LINES = ["put 0 0 1 7", "store 0 0 0 1", "load 0 2 0 0", "move 0 2 0 0", "new 0 3 0"]
MANY = 2000


def each(program, before, line):
    """Returns the instructions of a line that is done many times after other lines."""
    once, _ = counted(program, [*before, *[line] * MANY])
    twice, _ = counted(program, [*before, *[line] * MANY * 2])
    return (twice - once) / MANY


def cost(program, before, line):
    """Returns the instructions of one line after other lines."""
    without, _ = counted(program, before)
    whole, _ = counted(program, [*before, line])
    return whole - without


def main(program):
    """Prints a line for each count."""
    pinned = [*HEAP, *["open -"] * 4, *FROZEN]
    for line in LINES:
        print(f"{line}: {each(program, HEAP, line):.1f}, with 4 pins {each(program, pinned, line):.1f}")
    for regions in 16, 256:
        heap = ["newprim 0 0 long 1024"] * regions
        print(f"open - of {regions} used regions: {cost(program, heap, 'open -')}")
    points = ["class Point - x:int y:int", *["new 0 0 0"] * 65536]
    print(f"dump - of 65,536 Points: {cost(program, points, 'dump -')}")
    print(f"dump 1 of the same: {cost(program, [*points, 'open -'], 'dump 1')}")
    first = [cost(program, [*HEAP, *["open -"] * pins], *FROZEN) for pins in (0, 1, 4)]
    print(f"the first put into a region beside a pin: {first[1] - first[0]} more, beside 4: {first[2] - first[0]}")


if __name__ == "__main__":
    main(sys.argv[1] if len(sys.argv) > 1 else os.path.join(TOP, "bin/heapdbg"))
