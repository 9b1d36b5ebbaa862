#!/usr/bin/env python3
"""Measures what lines cost in heaps of more and more regions: `large.py [PROGRAM [REGIONS ..]]`.

PROGRAM is `bin/heapdbg` if it isn't given, and REGIONS are 256, 4096, 20000 and 65536. Each heap is full of nodes of two slots in one
list that a register names, but for two regions: one has cells of another size, and one is empty. Prints a table of the processor's
time of each line, as the kernel counts it for the program alone, and of the memory that the program has taken at most."""
import os
import pathlib
import subprocess
import sys
import threading

TOP = pathlib.Path(__file__).resolve().parent.parent
sys.path.append(str(TOP / "checks"))

from servers import memory_of  # noqa: E402

SIZES = (256, 4_096, 20_000, 65_536)
MANY = 20_000
NODES_EACH = 256
NODE = b"new 0 1 0\nstore 0 1 0 0\nmove 0 0 0 1\n"


class Heap:
    """A session of a wide heap."""

    def __init__(self, program, regions):
        words = [program, "run", "--wide", "1", "--questions", "1", "--regions", str(regions), "--keep", "65536"]
        self.ran = subprocess.Popen(words, stdin=subprocess.PIPE, stdout=subprocess.PIPE)
        self.regions = regions

    def nanoseconds(self):
        """Returns the processor's time of the program so far."""
        return int(pathlib.Path(f"/proc/{self.ran.pid}/schedstat").read_text().split()[0])

    def answers(self, count):
        """Reads the answers to this many lines. Returns the last line of the last answer."""
        line = b""
        while count:
            line = self.ran.stdout.readline()
            count -= not line.startswith((b"row ", b"data "))
        return line

    def say(self, lines, count):
        """Has lines answered, `count` of them. Returns how long that took for each, in nanoseconds, and the last answer."""
        begun = self.nanoseconds()
        writer = threading.Thread(target=self.write, args=(lines,))
        writer.start()
        last = self.answers(count)
        writer.join()
        return (self.nanoseconds() - begun) / count, last

    def write(self, lines):
        """Sends lines, while their answers are read."""
        self.ran.stdin.write(lines)
        self.ran.stdin.flush()

    def fill(self):
        """Fills all regions but one."""
        self.say(b"class Node - next:object value:int\nnewprim 0 5 long 16\nnew 0 0 0\nmove 0 6 0 0\n", 4)
        nodes = NODES_EACH * (self.regions - 2) - 1
        for first in range(0, nodes, MANY):
            count = min(MANY, nodes - first)
            self.say(NODE * count, 3 * count)

    def memory(self):
        """Returns the megabytes that the program has taken at most."""
        return memory_of(self.ran, "VmHWM") / (1 << 20)

    def close(self):
        """Ends the session."""
        self.ran.stdin.write(b"\nend\n")
        self.ran.stdin.close()
        self.ran.wait()


def times(heap):
    """Yields what is measured, each with its time in nanoseconds."""
    for line in (b"put 0 6 1 7", b"store 0 6 0 6", b"load 0 2 6 0"):
        yield line.split()[0].decode(), heap.say((line + b"\n") * MANY, MANY)[0]
    pair = heap.say(b"put 0 6 1 7\nrewind 1\n" * MANY, 2 * MANY)[0]
    yield "put and rewind 1, each", pair
    pair = heap.say(b"new 0 3 0\nrewind 1\n" * MANY, 2 * MANY)[0]
    yield "new into an empty region and rewind 1, each", pair
    heap.say(b"newprim 0 4 long 3\n", 1)
    yield "new beside other cell sizes", heap.say(b"new 0 3 0\n" * 200, 200)[0]
    yield "open - and close, both", 2 * sum(heap.say(b"open -\nclose %d\n" % number, 2)[0] for number in range(1, 6)) / 5
    yield "histogram -", heap.say(b"histogram -\n", 1)[0]
    yield "show of the first object", heap.say(b"show - 0x10002000\n", 1)[0]
    yield "path to the last of the list", heap.say(b"path - 0x10002000\n", 1)[0]
    yield "garbage -", heap.say(b"garbage -\n", 1)[0]
    yield "snap", heap.say(b"snap\n", 1)[0]
    yield "mark", heap.say(b"mark\n" * MANY, MANY)[0]
    yield "collect: the rest of a cycle", heap.say(b"collect\n", 1)[0]
    yield "collect: a whole cycle", heap.say(b"collect\n", 1)[0]
    heap.say(b"".join(b"clear 0 %d\n" % register for register in range(8)) + b"snap\n", 9)
    yield "finish and rewind 1, each", heap.say(b"finish\nrewind 1\n" * 10, 20)[0]


def shown(nanoseconds):
    """Returns a time with its unit."""
    for unit, size in (("s", 1e9), ("ms", 1e6), ("us", 1e3)):
        if nanoseconds >= size:
            return f"{nanoseconds / size:.3g} {unit}"
    return f"{nanoseconds:.0f} ns"


def main(program, sizes):
    """Prints the table."""
    columns = []
    for regions in sizes:
        heap = Heap(program, regions)
        heap.fill()
        columns.append({**{name: shown(time) for name, time in times(heap)}, "memory at most": f"{heap.memory():.0f} MB"})
        heap.close()
    print("| | " + " | ".join(f"{regions:,}" for regions in sizes) + " |")
    print("|---" * (len(sizes) + 1) + "|")
    for name in columns[0]:
        print(f"| {name} | " + " | ".join(column[name] for column in columns) + " |")


if __name__ == "__main__":
    PROGRAM = os.path.abspath(sys.argv[1]) if len(sys.argv) > 1 else os.path.join(TOP, "bin/heapdbg")
    main(PROGRAM, [int(word) for word in sys.argv[2:]] or SIZES)
