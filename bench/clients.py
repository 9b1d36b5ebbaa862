#!/usr/bin/env python3
"""Times lines of the client in Python, and operations of its recorder: `clients.py PROGRAM [LINES]`.

Prints for each way how long a million take on the clock, and of that in the client's own process."""
import os
import pathlib
import sys
import tempfile
import time

TOP = pathlib.Path(__file__).resolve().parent.parent
sys.path.append(str(TOP / "clients/python"))

from heapdbg import Recorder, Session  # noqa: E402


def puts(heap, lines):
    """Writes a slot again and again."""
    for number in range(lines):
        heap.put(0, 0, 1, number)
    heap.flush()


def batch_of_puts(heap, lines):
    """Does the same in a batch, whose values are kept."""
    with heap.batch() as batch:
        return [batch.put(0, 0, 1, number) for number in range(lines)]


def operations(record, count):
    """Has calls allocate an object each, and write it into a root. Runs a cycle now and then."""
    with record.call():
        record.alloc("root", "Root", {"newest": None})
        record.root("root")
    for number in range(count // 3):
        with record.call():
            record.alloc(number, "Node", {"number": number})
            record.write("root", "newest", number)
        if number % 10_000 == 0:
            record.collect()
    record.flush()


def timed(name, act, target, count):
    """Prints how long a million take."""
    begun, used = time.monotonic(), time.process_time()
    act(target, count)
    wall, own = (1_000_000 / count * each for each in (time.monotonic() - begun, time.process_time() - used))
    print(f"{name}: {wall:.2f} s, {own:.2f} s of them in the client")


def main(program, lines=1_000_000):
    for name, act, count, batched in (
        ("put, waiting for each reply", puts, lines // 10, False),
        ("put, batched", puts, lines, True),
        ("put in a batch", batch_of_puts, lines, False),
    ):
        with Session.explore(program, batched=batched) as heap:
            heap.define_class("Node", [("next", "object"), ("v", "long")])
            heap.new(0, 0, 0)
            timed(name, act, heap, count)
    with tempfile.TemporaryDirectory() as folder, Recorder.to_file(pathlib.Path(folder, "a.session")) as record:
        timed("operation of a recorder, to a file", operations, record, lines // 10)
    with Session.explore(program, regions=256) as heap:
        timed("operation of a recorder, to a session", operations, Recorder.to_session(heap), lines // 10)


if __name__ == "__main__":
    main(os.path.abspath(sys.argv[1]), *map(int, sys.argv[2:]))
