#!/usr/bin/env python3
"""Measures acts under the lock: `lock.py [FOLDER]`.

Builds `lock_bench.rt.txt` as one more crate of a copy of this repository in FOLDER (a temporary one if none is given), over what
checks here kept, and prints what an act costs over `Machine::step` in instructions and nanoseconds, what four threads do
against one, and the memory of 1,000,000 entries. With a FOLDER that has the program already, only measures."""
import pathlib
import re
import resource
import statistics
import subprocess
import sys
import tempfile
import time

TOP = pathlib.Path(__file__).resolve().parent.parent
sys.path.append(str(TOP / "scripts"))

from programs import built  # noqa: E402

MILLION = 999_000
RUNS = 11


def instructions(program, way):
    """Returns the instructions of one act or step, by the difference of two runs."""
    counts = []
    for count in 100_000, 200_000:
        with tempfile.TemporaryDirectory() as folder:
            words = ["valgrind", "--tool=callgrind", f"--callgrind-out-file={folder}/out", program, way, "1", str(count)]
            ran = subprocess.run(words, capture_output=True, check=True)
        counts.append(int(re.search(rb"Collected : (\d+)", ran.stderr)[1]))
    return (counts[1] - counts[0]) / 100_000


def run(program, way, threads, count):
    """Runs once. Returns the wall time, the processor time in the program, and that in the system, in seconds."""
    before = resource.getrusage(resource.RUSAGE_CHILDREN)
    start = time.monotonic()
    subprocess.run([program, way, str(threads), str(count)], capture_output=True, check=True)
    wall = time.monotonic() - start
    after = resource.getrusage(resource.RUSAGE_CHILDREN)
    return wall, after.ru_utime - before.ru_utime, after.ru_stime - before.ru_stime


def median(program, way, threads, count):
    """Returns the medians of several runs."""
    return [statistics.median(column) for column in zip(*(run(program, way, threads, count) for _ in range(RUNS)))]


def peak(program, way, count):
    """Returns the most memory of a run, in KiB."""
    ran = subprocess.run(["/usr/bin/env", "time", "-f", "%M", program, way, "1", str(count)], capture_output=True, check=True)
    return int(ran.stderr.split()[-1])


def main(folder):
    """Prints a line for each figure."""
    program = built(folder, TOP / "bench/lock_bench.rt.txt", "all_acted", "", ["act", "1", "1"])
    steps, acts = instructions(program, "step"), instructions(program, "act")
    print(f"instructions: step {steps:.1f}, act {acts:.1f}, more {acts - steps:.1f}")
    for name, place in ("wall", 0), ("user", 1), ("system", 2):
        step = median(program, "step", 1, MILLION)[place]
        act = median(program, "act", 1, MILLION)[place]
        print(f"ns, {name}: step {step * 1e9 / MILLION:.1f}, act {act * 1e9 / MILLION:.1f}, more {(act - step) * 1e9 / MILLION:.1f}")
    one, four = median(program, "act", 1, MILLION)[0], median(program, "act", 4, MILLION // 4)[0]
    print(f"acts a second: one thread {MILLION / one / 1e6:.2f} million, four {MILLION / four / 1e6:.2f} million")
    full, empty = peak(program, "act", MILLION), peak(program, "act", 0)
    print(f"memory of {MILLION} entries: {(full - empty) / 1024:.1f} MiB at the peak")


if __name__ == "__main__":
    if len(sys.argv) > 1:
        main(sys.argv[1])
    else:
        with tempfile.TemporaryDirectory(prefix="lock-") as name:
            main(name)
