#!/usr/bin/env python3
"""Measures what questions cost in heaps of many objects: `questions.py [PROGRAM [OBJECTS ..]]`.

PROGRAM is `bin/heapdbg` if it isn't given, and OBJECTS are 65,000 and 5,000,000. Each heap is a list, a binary tree, or nodes with
three links each to nodes at random, and has 65,536 retained steps; `checks/large_heaps.py` has the questions. Prints for each of
them the processor's time that the program takes in each heap, as the kernel counts it for the program alone, what it may take, and
how many bytes the longest answer has; then the memory that the program has taken at most. A time that is larger than it may be
stands in bold face. Standard error tells each time as it is taken. Questions about the oldest state are left out in large heaps,
whose steps are as many. The program asks for huge pages, as heapdbg-explore has it do; `PAGES=small` measures it without them."""
import os
import pathlib
import sys
import tempfile

TOP = pathlib.Path(__file__).resolve().parent.parent
sys.path.append(str(TOP / "checks"))

from large_heaps import LargeHeap, most_of  # noqa: E402

SIZES = (65_000, 5_000_000)
SHAPES = ("list", "tree", "random")
# The most objects for which a question is asked several times, of which the median counts, and how often.
SMALL, TIMES = 100_000, 3
# Lines that are not asked twice: each would be answered otherwise.
ONCE = ("collect", "rewind", "forward", "open", "close", "write", "draw")
# Questions about two states.
PAIRS = ("growth", "kept", "diff")
# The seconds that questions about five million objects may take, by their first word: those of a hunt, and others.
HUNTING = dict.fromkeys("histogram garbage registers classes show path born wrote watch writes when history".split(), 2)
MOST = HUNTING | dict.fromkeys(("retained", "objects", "dominators"), 5)


def bound(line, shape, objects):
    """Returns the seconds that a question may take, or None."""
    if objects <= SMALL:
        return most_of(line)
    word = line.split()[0]
    return 15 if (word, shape) == ("dominators", "random") else MOST.get(word)


def times(program, shape, objects):
    """Returns the name of each question with the bytes of its answer and what it takes in a heap, and what memory the program takes."""
    with tempfile.TemporaryDirectory(prefix="questions-") as folder:
        heap = LargeHeap(program, shape, objects, folder)
        found = []
        for name, line in heap.lines():
            if objects > SMALL and " old" in name and not line.startswith(PAIRS):
                continue
            count = TIMES if objects <= SMALL and not line.startswith(ONCE) else 1
            asked = [heap.ask(line) for _ in range(count)]
            found.append((name, *sorted(asked, key=lambda it: it[2])[count // 2][1:]))
            print(f"{shape}: {name}: {shown(found[-1][2], bound(name, shape, objects))}, {asked[0][0][-1]}", file=sys.stderr)
        return found, heap.close()


def shown(seconds, most):
    """Returns a time with its unit."""
    text = f"{seconds:.2f} s" if seconds >= 1 else f"{1000 * seconds:.1f} ms"
    return f"**{text}**" if most is not None and seconds > most else text


def table(program, objects):
    """Prints the table of heaps of some numbers of objects."""
    columns, memory = zip(*(times(program, shape, objects) for shape in SHAPES))
    print(f"| {objects:,} objects | {' | '.join(SHAPES)} | may take | bytes |\n|---|---|---|---|---|---|")
    for asked in zip(*columns):
        name = asked[0][0]
        most = [bound(name, shape, objects) for shape in SHAPES]
        cells = [shown(seconds, each) for (_, _, seconds), each in zip(asked, most)]
        may = " or ".join(sorted({shown(each, None) for each in most if each is not None}))
        print(f"| `{name}` | {' | '.join(cells)} | {may} | {max(size for _, size, _ in asked):,} |")
    print(f"| memory at most | {' | '.join(f'{each:,} MB' for each in memory)} | | |", flush=True)


def main(program, sizes):
    """Prints the tables."""
    for objects in sizes:
        table(program, objects)


if __name__ == "__main__":
    if os.environ.get("PAGES") != "small":
        os.environ["GLIBC_TUNABLES"] = "glibc.malloc.hugetlb=1"
    PROGRAM = os.path.abspath(sys.argv[1]) if len(sys.argv) > 1 else os.path.join(TOP, "bin/heapdbg")
    main(PROGRAM, [int(word) for word in sys.argv[2:]] or SIZES)
