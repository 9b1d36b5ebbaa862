#!/usr/bin/env python3
"""Times the dump of a session that is saved to a file: `saves.py [PROGRAM ..]`.

PROGRAM is `bin/heapdbg` if none is given. Sessions that make 65,536 objects and 256 arrays are saved and run in turn, 100 times
each, by each program; each save makes its file anew. What the dump costs is the difference of the medians: of user and system time
together, and of the time on the clock. Two programs that are named together are timed in turn, under the same noise."""
import os
import pathlib
import statistics
import subprocess
import sys
import tempfile
import time

TOP = os.path.join(os.path.dirname(os.path.abspath(__file__)), "..")
TIMES = 100
HEAPS = {
    "objects": (65_536, "class Point - x:int y:int\n", "new 0 0 0\n"),
    "arrays": (256, "", "newprim 0 0 long 1024\n"),
}


def seconds(words, path):
    """Returns the user and system time of a program whose input is a file, and the time that passed."""
    begin = time.monotonic()
    with open(path, "rb") as lines:
        child = subprocess.Popen(words, stdin=lines, stdout=subprocess.DEVNULL)
    _, status, used = os.wait4(child.pid, 0)
    assert status == 0
    return used.ru_utime + used.ru_stime, time.monotonic() - begin


def medians(times):
    """Returns the median of each of the columns."""
    return [statistics.median(column) for column in zip(*times)]


def costs(programs, session, out):
    """Returns for each program the user and system time of a dump, and the time that passes, in seconds."""
    heap = ["--regions", "256"]
    saved, ran = {program: [] for program in programs}, {program: [] for program in programs}
    for _ in range(TIMES):
        for program in programs:
            pathlib.Path(out).unlink(missing_ok=True)
            saved[program].append(seconds([program, "save", "--out", out, *heap], session))
            ran[program].append(seconds([program, "run", *heap], session))
    return {program: [more - less for more, less in zip(medians(saved[program]), medians(ran[program]))] for program in programs}


def main(programs):
    """Prints what the dumps cost."""
    with tempfile.TemporaryDirectory() as folder:
        session, out = os.path.join(folder, "in"), os.path.join(folder, "heap.hprof")
        for name, (count, first, line) in HEAPS.items():
            with open(session, "w") as file:
                file.write(first + line * count)
            for program, (cpu, clock) in costs(programs, session, out).items():
                size = os.path.getsize(out)
                print(f"{program}: save of {count} {name}, {size} bytes: {cpu / count * 1e9:.0f} ns each of user and system time, "
                      f"{clock * 1e3:.2f} ms on the clock, {size / clock / 1e6:.0f} MB/s")


if __name__ == "__main__":
    main(sys.argv[1:] or [os.path.join(TOP, "bin/heapdbg")])
