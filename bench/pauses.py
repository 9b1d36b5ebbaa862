#!/usr/bin/env python3
"""Measures acts that a heap's size may slow down, and how long acts on a served heap wait: `pauses.py [PROGRAM [REGIONS ..]]`.

PROGRAM is `bin/heapdbg` if it isn't given, and REGIONS are 16, 256, 4096 and 65536. The first table has the processor's time of an
act in a heap full of nodes of two slots in one list (see large.py), as means of pairs that leave the heap as it was. The second
one is about a served heap of 60,000 nodes: how many replies to single `put`s of one client took how long, from the first byte sent
to the last one read, beside nothing, beside cycles of both workers, beside dumps, too, and beside questions, too."""
import os
import socket
import subprocess
import sys
import threading
import time

from large import TOP, Heap, shown
from served import NODES, again, made, told

sys.path.append(str(TOP / "checks"))

from servers import DumpServer  # noqa: E402

SIZES = (16, 256, 4_096, 65_536)
PAIRS, PUTS = 2_000, 20_000
# The upper bounds of the rows, in microseconds.
BOUNDS = (50, 100, 200, 500, 1_000, 2_000, 5_000, 10_000)
SERVED = ["--wide", "1", "--regions", "1024", "--keep", "1", "--questions", "1", "--roll", "1"]


class Pairs:
    """What pairs of lines cost in a heap."""

    def __init__(self, heap):
        self.heap = heap
        self.pins = 0

    def place(self):
        """Returns the current place, which a pin tells."""
        self.pins += 1
        place = int(self.heap.say(b"open -\n", 1)[1].split()[-1])
        self.heap.say(b"close %d\n" % self.pins, 1)
        return place

    def of(self, *lines):
        """Returns the time of lines that leave the heap as it was, all together, in nanoseconds."""
        lines = b"".join(line + b"\n" for line in lines)
        return self.heap.say(lines * PAIRS, lines.count(b"\n") * PAIRS)[0] * lines.count(b"\n")

    def beside_a_pin(self, opening, *lines):
        """Returns the time of a pin's opening, of lines beside it, and of its closing, all together, in nanoseconds."""
        numbers = range(self.pins + 1, self.pins + PAIRS + 1)
        self.pins += PAIRS
        behind = b"".join(line + b"\n" for line in lines)
        count = len(lines) + 2
        said = b"".join(b"%s\n%sclose %d\n" % (opening, behind, number) for number in numbers)
        return self.heap.say(said, count * PAIRS)[0] * count


def acts(heap):
    """Yields what is measured, each with its time in nanoseconds."""
    pairs = Pairs(heap)
    yield "`put` and its undoing", pairs.of(b"put 0 6 1 7", b"rewind 1")
    heap.say(b"newprim 0 4 long 3\n", 1)
    yield "`new` beside cells of another size, and its undoing", pairs.of(b"new 0 3 0", b"rewind 1")
    alone = pairs.beside_a_pin(b"open -")
    yield "`open -` and `close`", alone
    yield "first `put` into a region beside a pin, and its undoing", pairs.beside_a_pin(b"open -", b"put 0 6 1 7", b"rewind 1") - alone
    heap.say(b"".join(b"clear 0 %d\n" % register for register in range(8)) + b"snap\n", 9)
    yield "`finish` and its undoing", pairs.of(b"finish", b"rewind 1")
    heap.say(b"finish\n", 1)
    yield "`open @P` over a `finish`, and `close`", pairs.beside_a_pin(b"open @%d" % (pairs.place() - 1))


def waits(port):
    """Returns how long the reply to each of many single acts took, in microseconds."""
    times = []
    with socket.create_connection(("127.0.0.1", port)) as client:
        client.setsockopt(socket.IPPROTO_TCP, socket.TCP_NODELAY, 1)
        for number in range(PUTS):
            start = time.perf_counter_ns()
            client.sendall(b"put 0 0 1 %d\n" % number)
            while not client.recv(64).endswith(b"\n"):
                pass
            times.append((time.perf_counter_ns() - start) / 1000)
        client.sendall(b"end\n")
    return times


def asks(port, lines):
    """Returns an act that sends lines to a session and reads their answers."""
    client = socket.create_connection(("127.0.0.1", port))
    replies = client.makefile("rb")

    def act():
        client.sendall(lines)
        for _ in range(lines.count(b"\n")):
            while replies.readline().startswith(b"row "):
                pass

    return act


def beside(program, *, workers=False, dumps=False, questions=False):
    """Returns how long replies took beside other work on a served heap."""
    words = [*SERVED, *["--workers", "1"] * workers]
    with DumpServer(program, 8, *words, stdout=subprocess.DEVNULL, stderr=None) as server:
        server.waits()
        told(server.port, made(3 * NODES))
        others = []
        if workers:
            others.append(asks(server.port, b"snap\n"))
        if dumps:
            others.append(server.dump)
        if questions:
            others.append(asks(server.port, b"histogram -\ngarbage -\n"))
        ends = [again(act) for act in others]
        times = waits(server.port)
        for end in ends:
            end()
        return times


def counts(times):
    """Returns how many times each row has, and the longest."""
    lows = (0, *BOUNDS)
    return [sum(low <= time < high for time in times) for low, high in zip(lows, (*BOUNDS, float("inf")))] + [shown(1000 * max(times))]


def print_table(heads, rows):
    """Prints a table."""
    print("| | " + " | ".join(heads) + " |")
    print("|---" * (len(heads) + 1) + "|")
    for name, cells in rows:
        print(f"| {name} | " + " | ".join(map(str, cells)) + " |")


def main(program, sizes):
    """Prints both tables."""
    columns = []
    for regions in sizes:
        heap = Heap(program, regions)
        heap.fill()
        columns.append(dict(acts(heap)))
        heap.close()
    print_table([f"{regions:,} regions" for regions in sizes], [(name, [shown(column[name]) for column in columns]) for name in columns[0]])
    print()
    beside_what = {"nothing": {}, "workers": {"workers": True}, "workers, dumps": {"workers": True, "dumps": True},
                   "workers, dumps, questions": {"workers": True, "dumps": True, "questions": True}}
    found = [counts(beside(program, **how)) for how in beside_what.values()]
    names = [*(f"under {shown(1000 * bound)}" for bound in BOUNDS), "longer", "the longest"]
    print_table(list(beside_what), [(name, row) for name, row in zip(names, zip(*found))])


if __name__ == "__main__":
    PROGRAM = os.path.abspath(sys.argv[1]) if len(sys.argv) > 1 else os.path.join(TOP, "bin/heapdbg")
    main(PROGRAM, [int(word) for word in sys.argv[2:]] or SIZES)
