#!/usr/bin/env python3
"""Compares heapdbg with the same program in plain Rust, `bench/plain`: `ratio.py [PROGRAM]`.

PROGRAM is `bin/heapdbg` if it isn't given. Prints a row for each workload: its lines, the instructions of both programs
for each line (of a dump, for each byte; those of the kernel aren't counted), and their ratio; then the user times of longer
sessions, medians of five. Fails if the programs answer otherwise. Needs `rustc` and `valgrind`."""
import os
import pathlib
import resource
import statistics
import subprocess
import sys
import tempfile

from line import TOTAL

HERE = pathlib.Path(__file__).resolve().parent
COUNT, TIMED = 200_000, 1_000_000
TIMES = 5
KINDS = {
    "mixed": ["--regions", "8"],
    "puts": [],
    "cycles": ["--regions", "256"],
    "rewinds": ["--regions", "256", "--keep", "65536"],
    "pinned": ["--regions", "16"],
}
FULL = {
    "dump of instances": ["class Point - x:int y:int", *["new 0 0 0"] * 65536],
    "dump of arrays": ["newprim 0 0 long 1024"] * 256,
}
DUMPS = 20


def plain(folder):
    """Builds the plain program in a folder. Returns its path."""
    program = folder / "plain"
    words = ["rustc", "--edition", "2024", "-O", "-C", "target-cpu=x86-64", "-C", "panic=abort", "-o", program]
    subprocess.run([*words, HERE / "plain/main.rs"], check=True)
    return program


def generated(kind, count):
    """Returns the text of a session."""
    words = [sys.executable, HERE / "generate.py", kind, str(count)]
    return subprocess.run(words, stdout=subprocess.PIPE, check=True).stdout


def text_of(lines):
    """Returns the text of lines."""
    return "".join(f"{line}\n" for line in lines).encode()


class Bench:
    """The two programs, and a folder in memory."""

    def __init__(self, folder, program):
        self.folder = folder
        self.programs = [program, plain(folder)]

    def run(self, words, text, tool=()):
        """Runs a program on a session. Returns its user time in seconds."""
        (self.folder / "in").write_bytes(text)
        before = resource.getrusage(resource.RUSAGE_CHILDREN).ru_utime
        with open(self.folder / "in", "rb") as source, open(self.folder / "out", "wb") as sink:
            subprocess.run([*tool, *words], stdin=source, stdout=sink, check=True)
        return resource.getrusage(resource.RUSAGE_CHILDREN).ru_utime - before

    def instructions(self, options, text):
        """Returns the instructions that both programs take for a session, and what they both answer."""
        counts, answers = [], []
        for program in self.programs:
            counted = self.folder / "counted"
            tool = ["valgrind", "--tool=callgrind", f"--callgrind-out-file={counted}", "--log-file=/dev/null"]
            self.run([program, "run", *options], text, tool)
            counts.append(int(TOTAL.search(counted.read_bytes())[1]))
            answers.append((self.folder / "out").read_bytes())
        if answers[0] != answers[1]:
            raise SystemExit("the programs answer otherwise")
        return counts, answers[0]

    def cost(self, options, before, text):
        """Returns the instructions that both programs take for a text after another, and what they answer."""
        (base, told), (whole, answer) = self.instructions(options, before), self.instructions(options, before + text)
        return [more - less for more, less in zip(whole, base)], answer[len(told) :]

    def times(self, options, text):
        """Returns the median of the user times of both programs for a session."""
        runs = [[self.run([program, "run", *options], text) for program in self.programs] for _ in range(TIMES)]
        return [statistics.median(each) for each in zip(*runs)]


def row(name, size, costs, form):
    """Prints a row."""
    print(f"{name:<18} {size:>9}", *(format(cost, form) for cost in costs), f"{costs[0] / costs[1]:6.2f}", flush=True)


def main(program):
    """Prints the table."""
    with tempfile.TemporaryDirectory(dir="/dev/shm") as name:
        bench = Bench(pathlib.Path(name), program)
        print("instructions           lines heapdbg  plain  ratio")
        for kind, options in KINDS.items():
            text = generated(kind, COUNT)
            count = text.count(b"\n")
            costs, _ = bench.cost(options, b"", text)
            row(kind, count, [cost / count for cost in costs], "7.1f")
        for kind, lines in FULL.items():
            costs, answer = bench.cost(["--regions", "256"], text_of(lines), b"dump -\n")
            size = int(answer.split()[-1])
            row(kind, f"{size} B", [cost / size for cost in costs], "7.2f")
        print("user ms                lines heapdbg  plain  ratio")
        for kind, options in KINDS.items():
            text = generated(kind, TIMED)
            row(kind, text.count(b"\n"), [1000 * time for time in bench.times(options, text)], "7.1f")
        for kind, lines in FULL.items():
            text = text_of([*lines, *["dump -"] * DUMPS])
            row(kind, text.count(b"\n"), [1000 * time for time in bench.times(["--regions", "256"], text)], "7.1f")


if __name__ == "__main__":
    main(os.path.abspath(sys.argv[1]) if len(sys.argv) > 1 else HERE.parent / "bin/heapdbg")
