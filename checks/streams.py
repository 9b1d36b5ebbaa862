#!/usr/bin/env python3
"""Runs the built program over streams that cut, are interrupted or fail, and compares what comes with what must come.

Usage: checks/streams.py PROGRAM ..
The streams are those of checks/streams.c. Sessions that are read and written in parts are answered as usual. A read that fails,
or would block, ends a session after the answers to the lines that were read whole; such a write ends it after the bytes that
are out. A save, a fetch and lines of a session write to files that fail, and a save is whole even if its thread begins late or
isn't made. After a served session that a fault ended, the next client finds the state that this session must have left. Prints a
line for each difference and ends with status 1 if there is one. Prints nothing if all is well."""
import concurrent.futures
import contextlib
import os
import pathlib
import socket
import struct
import subprocess
import sys
import tempfile
import threading

TOP = pathlib.Path(__file__).resolve().parent.parent
sys.path[:0] = [str(TOP / "checks"), str(TOP / "checks/model"), str(TOP / "checks/program")]

from cases import stored  # noqa: E402
from clients import asked, connected, ended, ended_by, rest_of, served  # noqa: E402
from ports import free_port  # noqa: E402
from runs import EXAMPLE, EXAMPLE_REPLIES, POINT, POINT_DUMP, POINT_MADE, dump_of_longs  # noqa: E402
from save_cases import received, saved_to  # noqa: E402
from serve_cases import ARRAY  # noqa: E402
from session import answers_of  # noqa: E402

SOURCE = TOP / "checks/streams.c"
SECONDS = 60
# How often in a row a stream may be interrupted.
INTERRUPTIONS = 99
# A session whose lines change the state in many ways, and have an answer of one line each.
SWEPT = b"""class Point - x:int y:int
new 0 0 0
new 0 1 0
new 0 2 0
clear 0 0
clear 0 1
snap
mark
finish
new 0 3 0
sweep 0
new 0 4 0
rewind 1
new 0 4 0
new 0 5 0
sweep 0
"""
# Lines whose answers tell the state: the place, the retained steps, classes, objects and registers, and the phase.
QUESTIONS = b"rewind 0\nrewind 65537\ndump -\nmark\ndrain\nfinish\nsweep 0\nsnap\nrewind 2\ndump -\n"
MANY_POINTS = b"class Point - x:int y:int\n" + b"new 0 0 0\n" * 2000


class Ran:
    """What came of a run: status, standard output and error, how many bytes were read, how many reads and writes there were, and how
    many reads came after a write that failed."""

    def __init__(self, status, out, error, counts):
        self.status, self.out, self.error = status, out, error
        self.bytes, self.reads, self.writes, self.late = counts

    def told(self):
        return self.status, self.out, self.error


class Program:
    """A program whose streams go by the library."""

    def __init__(self, program, library):
        self.program, self.library = program, library

    def rules(self, **rules):
        """Returns the variables of a run by rules as IN_MOST=1."""
        return {"LD_PRELOAD": self.library, **{name: str(value) for name, value in rules.items()}}

    def run(self, given, words=("run",), **rules):
        """Runs the program over an input, by rules as IN_MOST=1."""
        with tempfile.TemporaryFile() as lines, tempfile.NamedTemporaryFile() as counts:
            lines.write(given)
            lines.seek(0)
            counts.write(bytes(32))
            counts.flush()
            how = {"stdin": lines, "capture_output": True, "timeout": SECONDS, "env": self.rules(COUNTS=counts.name, **rules)}
            ran = subprocess.run(["heapdbg", *words], executable=self.program, **how)
            counts.seek(0)
            return Ran(ran.returncode, ran.stdout, ran.stderr, struct.unpack("4q", counts.read(32)))

    def save(self, given, **rules):
        """Saves a session to a file. Returns what came of the run, and what the file has, None if there is none."""
        with tempfile.TemporaryDirectory() as folder:
            path = pathlib.Path(folder, "heap.hprof")
            ran = self.run(given, ["save", "--out", str(path)], **rules)
            return ran, path.read_bytes() if path.exists() else None

    def explore(self, given, **rules):
        """Explores by lines in which PATH stands for that of a file. Returns what came of the run, and what the file has, None if there
        is none."""
        with tempfile.TemporaryDirectory() as folder:
            path = pathlib.Path(folder, "heap")
            ran = self.run(given.replace(b"PATH", str(path).encode()), ["explore"], **rules)
            return ran, path.read_bytes() if path.exists() else None


def library_in(folder):
    """Builds the library of streams. Returns its path."""
    library = os.path.join(folder, "streams.so")
    subprocess.run(["cc", "-shared", "-fPIC", "-O1", "-o", library, SOURCE], check=True)
    return library


def replies(lines):
    """Returns the answers to the lines of a text that are whole, by the model."""
    answers, _ = answers_of(lines[: lines.rfind(b"\n") + 1])
    return b"".join(answers)


# ---- streams that cut


def in_parts(program):
    """Yields the worked sessions, read and written in parts of several sizes, as (name, what came, what must come)."""
    for name, words, lines, answers in stored():
        for read, write in ((1, 1), (2, 7), (7, 64), (64, 1)):
            ran = program.run(lines, ["run", *words], IN_MOST=read, OUT_MOST=write)
            status = 1 if answers.endswith((b"bad cut\n", b"bad long\n")) else 0
            yield f"{name} by {read} and {write} bytes", (ran.status, ran.out), (status, answers)
    for letters, ending in ((4096, b"bad command\nno 15 NotMarking\n"), (4097, b"bad long\n")):
        for count in (0, 819, 2000):
            lines = b"clear 0 0\n" * count + b"a" * letters + b"\nmark\n"
            for read in (1, 7, 4096):
                ran = program.run(lines, IN_MOST=read, OUT_MOST=1)
                yield f"{count} lines and {letters} letters by {read}", ran.out, b"ok\n" * count + ending
    for write in (1, 7, 4096):
        ran = program.run(ARRAY + b"dump -\n", OUT_MOST=write)
        yield f"a dump longer than the reply buffer by {write}", ran.told(), (0, dump_of_longs(1024), b"")


def few_writes(program):
    """Yields sessions whose answers are out before the next read, in as few writes as that allows."""
    for lines, read, writes in ((3, 1, 3), (3, 10, 3), (3, 15, 2), (3, 30, 1), (3000, 30_000, 2)):
        ran = program.run(b"clear 0 0\n" * lines, IN_MOST=read)
        yield f"writes for {lines} lines by {read}", (ran.out, ran.writes), (b"ok\n" * lines, writes)


# ---- streams that are interrupted


def interrupted(program):
    """Yields sessions whose reads or writes are interrupted: a hundred times in a row is a fault."""
    most = INTERRUPTIONS
    for reads, writes in ((0, 0), (1, 0), (0, 1), (3, 5), (most, most)):
        ran = program.run(EXAMPLE, IN_TIMES=reads, OUT_TIMES=writes, IN_MOST=1)
        yield f"{reads} and {writes} interruptions", ran.told(), (0, EXAMPLE_REPLIES, b"")
        ran, dump = program.save(POINT, IN_TIMES=reads, OUT_TIMES=writes, FILE_TIMES=writes, FILE_MOST=7)
        yield f"saved with {reads} and {writes}", (*ran.told(), dump), (0, POINT_MADE + b"saved 301\n", b"", POINT_DUMP)
    for times in (most + 1, most + 2, 10**9):
        ran = program.run(EXAMPLE, IN_TIMES=times)
        yield f"reads interrupted {times} times", (*ran.told(), ran.reads), (1, b"bad read\n", b"heapdbg: read\n", most + 1)
        ran = program.run(EXAMPLE, OUT_TIMES=times)
        yield f"writes interrupted {times} times", (*ran.told(), ran.writes), (1, b"", b"heapdbg: write\n", most + 1)
        ran, dump = program.save(POINT, FILE_TIMES=times)
        yield f"a file interrupted {times} times", (*ran.told(), dump), (1, POINT_MADE + b"failed 0\n", b"heapdbg: out\n", b"")


# ---- streams that fail


def failing_reads(program):
    """Yields sessions whose reads fail after each number of bytes: the lines before are answered."""
    for lines in (EXAMPLE, SWEPT):
        for count in range(len(lines) + 1):
            wanted = (1, replies(lines[:count]) + b"bad read\n", b"heapdbg: read\n")
            for read in (1, 4096):
                ran = program.run(lines, IN_LEFT=count, IN_MOST=read)
                yield f"a read that fails after {count} bytes", ran.told(), wanted


def line_behind(lines, text, out):
    """Returns how many bytes of the lines are read, one by each read, when `out` bytes of their answers are out and the next write fails:
    those up to the line that is being answered."""
    at = 0
    for line in lines.splitlines(keepends=True):
        at += len(line)
        if len(replies(lines[:at])) > out:
            return at
    raise ValueError(text)


def failing_writes(program):
    """Yields sessions whose writes fail after each number of bytes: these are out, and no line is read after that."""
    for lines in (EXAMPLE, SWEPT):
        text = replies(lines)
        behind = {len(text[:count]): line_behind(lines, text, count) for count in range(len(text))}
        for count in range(len(text)):
            wanted = (1, text[:count], b"heapdbg: write\n", 0)
            for nothing in (0, 1):
                by_one = program.run(lines, OUT_LEFT=count, OUT_NOTHING=nothing, OUT_MOST=1, IN_MOST=1)
                told = (*by_one.told(), by_one.late, by_one.bytes)
                yield f"a write that fails after {count} bytes", told, (*wanted, behind[count])
                ran = program.run(lines, OUT_LEFT=count, OUT_NOTHING=nothing)
                yield f"a write that fails after {count} bytes, lines at once", (*ran.told(), ran.late), wanted


# ---- streams that would block


def would_block(program):
    """Yields sessions of which one read or write would block, after each number of bytes. That is a fault, after which nothing is
    read or written, although the next call would be done."""
    for lines in (EXAMPLE, SWEPT):
        for count in range(len(lines) + 1):
            ran = program.run(lines, IN_AGAIN=count)
            wanted = (1, replies(lines[:count]) + b"bad read\n", b"heapdbg: read\n", 1 + (count > 0))
            yield f"a read that would block after {count} bytes", (*ran.told(), ran.reads), wanted
    text = replies(SWEPT)
    for count in range(len(text)):
        wanted = (1, text[:count], b"heapdbg: write\n", 0)
        ran = program.run(SWEPT, OUT_AGAIN=count, OUT_MOST=1, IN_MOST=1)
        yield f"a write that would block after {count} bytes", (*ran.told(), ran.late, ran.writes), (*wanted, count + 1)
    for count in (0, 1, 8191, 8192, 8193, 17_000):
        wanted = (1, dump_of_longs(1024)[:count], b"heapdbg: write\n", 0)
        ran = program.run(ARRAY + b"dump -\n", OUT_AGAIN=count)
        yield f"a write of a dump that would block after {count} bytes", (*ran.told(), ran.late), wanted


def blocking_saves(program):
    """Yields saves of which one write would block, to a file and to a listener."""
    for count in range(0, len(POINT_DUMP), 10):
        wanted = (1, POINT_MADE + b"failed %d\n" % count, b"heapdbg: out\n", POINT_DUMP[:count])
        ran, dump = program.save(POINT, FILE_AGAIN=count)
        yield f"a file that would block after {count} bytes", (*ran.told(), dump), wanted
        happened = saved_to(program.program, received, POINT, env=program.rules(SENT_AGAIN=count))
        yield f"a listener that would block after {count} bytes", happened, wanted


def blocking_sockets(program):
    """Yields a served session and a client of one, of which one read or write of the socket would block. A write of a session is tried
    again, since its socket has a time limit."""
    read, goes_on = (0, b"session 1 read\n", b""), (0, b"session 1 eof\n", b"", POINT_MADE)
    for count in (0, 1, 10, 35, len(POINT)):
        happened = served(program.program, ended_by(POINT[:count]), env=program.rules(RECEIVED_AGAIN=count))
        yield f"a client that would block after {count} bytes", happened, (*read, replies(POINT[:count]) + b"bad read\n")
    for count in (0, 1, 10, len(POINT_MADE) - 1):
        happened = served(program.program, ended_by(POINT), env=program.rules(SENT_AGAIN=count))
        yield f"a client that would block after {count} bytes of answers", happened, goes_on
        rules = program.rules(RECEIVED_AGAIN=count)
        happened = served(program.program, lambda port: asked(program.program, port, EXAMPLE, env=rules))
        yield f"a server that would block after {count} bytes", happened[3:], (1, EXAMPLE_REPLIES[:count], b"heapdbg: read\n")


def many_reads(program):
    """Yields served sessions of a million reads that take one LF each, and then the end, which a wide heap's alone may read."""
    for words, ending, answer in (([], b"reads", b"bad reads\n"), (["--wide", "1"], b"eof", b"")):
        happened = served(program.program, ended_by(b"\n" * 1_000_000), words, env=program.rules(RECEIVED_MOST=1))
        yield f"a million reads and the end {words}", happened, (0, b"session 1 %s\n" % ending, b"", answer)


# ---- what a session leaves that ended by a fault


def left_by(program, lines, questions, **rules):
    """Returns what a second client is answered once the session of these lines has ended, by rules as RECEIVED_MOST=1."""

    def clients(port):
        # A session that ends with lines unread resets its connection, maybe while they are sent.
        with contextlib.suppress(OSError):
            ended_by(lines)(port)
        return ended(questions + b"end\n")(port)

    *_, answers = served(program.program, clients, ["--sessions", "2"], env=program.rules(**rules))
    return answers


def states_left(program):
    """Yields served sessions that end at each byte by a read or a write that fails, and the state that the next client finds: the
    one after the lines that were read whole, or after the line that was being answered."""
    for lines in (EXAMPLE, SWEPT):
        for count in range(len(lines)):
            read = lines[: lines.rfind(b"\n", 0, count) + 1]
            came = left_by(program, lines, QUESTIONS, RECEIVED_ONCE=count)
            yield f"left by a read that fails after {count} bytes", replies(read) + came, replies(read + QUESTIONS)
        for count in range(len(replies(lines))):
            read = lines[: line_behind(lines, lines, count)]
            came = left_by(program, lines, QUESTIONS, RECEIVED_MOST=1, SENT_ONCE=count)
            yield f"left by a write that fails after {count} bytes", replies(read) + came, replies(read + QUESTIONS)
    pins = b"".join(b"ok pin %d at 1\n" % pin for pin in range(2, 6))
    for count in range(21, len(dump_of_longs(1024)), 512):
        came = left_by(program, ARRAY + b"dump -\n", b"open -\n" * 4, SENT_ONCE=count)
        yield f"pins left by a dump cut after {count} bytes", came, pins


def dump_of(port):
    """Returns what a server of dumps sends."""
    with connected(port) as client:
        return rest_of(client, b"")


def outlets_that_fail(program):
    """Yields dumps of a served heap that can't be sent from some byte on: those before come, the next dump is whole, and the heap is as
    before. The dump's pieces have 143, 149 and 9 bytes."""
    told = replies(POINT + QUESTIONS)[len(POINT_MADE) :]
    counts = [(1, count) for count in range(len(POINT_DUMP))]
    counts += [(4096, count) for count in (0, 1, 142, 143, 144, 291, 292, 293, 300)]
    for most, count in counts:
        dumps = free_port()

        def clients(port):
            ended(POINT + b"end\n")(port)
            return (dump_of(dumps), dump_of(dumps), *ended(QUESTIONS + b"end\n")(port))

        rules = program.rules(SENT_MOST=most, SENT_ONCE=len(POINT_MADE) + count)
        happened = served(program.program, clients, ["--sessions", "2", "--dumps", str(dumps)], env=rules)
        wanted = (0, b"session 1 quit\nsession 2 quit\n", b"", POINT_DUMP[:count], POINT_DUMP, told)
        yield f"a dump of which {count} bytes can be sent, {most} at once", happened, wanted


# ---- saves


def failing_files(program):
    """Yields saves into files that fail after each number of bytes: these are in the file."""
    for count in range(len(POINT_DUMP)):
        wanted = (1, POINT_MADE + b"failed %d\n" % count, b"heapdbg: out\n", POINT_DUMP[:count])
        for most in (1, 4096):
            ran, dump = program.save(POINT, FILE_LEFT=count, FILE_MOST=most)
            yield f"a file that fails after {count} bytes", (*ran.told(), dump), wanted
    ran, dump = program.save(POINT, FILE_LEFT=len(POINT_DUMP), FILE_MOST=1)
    yield "a file with just enough room", (*ran.told(), dump), (0, POINT_MADE + b"saved 301\n", b"", POINT_DUMP)
    ran, whole = program.save(MANY_POINTS)
    whole = whole or b""
    yield "a dump of two batches", (ran.status, len(whole)), (0, 66_412)
    # The first batch has the opening and 15 segments, 61,657 bytes.
    for count in (0, 1, 4096, 61_656, 61_657, 61_658, 66_000, 66_411):
        ran, dump = program.save(MANY_POINTS, FILE_LEFT=count)
        told = (ran.status, ran.out.splitlines()[-1:], ran.error, dump)
        yield f"two batches, {count} bytes", told, (1, [b"failed %d" % count], b"heapdbg: out\n", whole[:count])


def failing_written(program):
    """Yields lines that write files which fail after each number of bytes: none stays."""
    lines = POINT + b"write PATH\nmark\n"
    for count in range(len(POINT_DUMP)):
        for most in (1, 4096):
            ran, dump = program.explore(lines, FILE_LEFT=count, FILE_MOST=most)
            wanted = (0, POINT_MADE + b"no 31 NoFile\nno 15 NotMarking\n", b"", None)
            yield f"a written file that fails after {count} bytes", (*ran.told(), dump), wanted
    ran, dump = program.explore(lines, FILE_LEFT=len(POINT_DUMP), FILE_MOST=1)
    yield "a written file with just enough room", (*ran.told(), dump), (0, POINT_MADE + b"ok 301\nno 15 NotMarking\n", b"", POINT_DUMP)
    ran, dump = program.explore(lines, FILE_TIMES=INTERRUPTIONS)
    yield "an interrupted written file", (*ran.told(), dump), (0, POINT_MADE + b"ok 301\nno 15 NotMarking\n", b"", POINT_DUMP)


def failing_saves(program):
    """Yields saves whose session can't be read or answered. There is no file then, but if the last line alone can't be written."""
    for count in range(len(POINT) + 1):
        ran, dump = program.save(POINT, IN_LEFT=count, IN_MOST=1)
        wanted = (1, replies(POINT[:count]) + b"bad read\n", b"heapdbg: read\n", None)
        yield f"a saved session whose read fails after {count} bytes", (*ran.told(), dump), wanted
    text = POINT_MADE + b"saved 301\n"
    for count in range(len(text)):
        ran, dump = program.save(POINT, OUT_LEFT=count, OUT_MOST=1)
        wanted = (1, text[:count], b"heapdbg: write\n", None if count < len(POINT_MADE) else POINT_DUMP)
        yield f"a saved session whose write fails after {count} bytes", (*ran.told(), dump), wanted


# ---- dumps that are fetched


def fetched(program, given, **rules):
    """Has `fetch` take these bytes from a server that then closes, by rules as FILE_LEFT=1. Returns status, standard output and error,
    and what the file has."""

    def sends(listener):
        # A `fetch` whose file fails may have closed its connection.
        with contextlib.suppress(OSError), listener.accept()[0] as client:
            client.sendall(given)

    with socket.create_server(("127.0.0.1", 0)) as listener, tempfile.TemporaryDirectory() as folder:
        path = pathlib.Path(folder, "heap.hprof")
        server = threading.Thread(target=sends, args=(listener,))
        server.start()
        words = ["heapdbg", "fetch", "--port", str(listener.getsockname()[1]), "--out", str(path)]
        how = {"capture_output": True, "timeout": SECONDS, "env": program.rules(**rules)}
        ran = subprocess.run(words, executable=program.program, **how)
        server.join(SECONDS)
        return ran.returncode, ran.stdout, ran.stderr, path.read_bytes()


def failing_fetches(program):
    """Yields fetches into files that fail after each number of bytes: these are told, and are in the file."""
    size = len(POINT_DUMP)
    for count, most in (*((count, 7) for count in range(size)), (0, size), (1, size), (150, size), (size - 1, size)):
        wanted = (1, b"failed %d\n" % count, b"heapdbg: out\n", POINT_DUMP[:count])
        told = fetched(program, POINT_DUMP, FILE_LEFT=count, FILE_MOST=most)
        yield f"a fetch into a file that fails after {count} bytes, {most} at once", told, wanted
    told = fetched(program, POINT_DUMP, FILE_LEFT=len(POINT_DUMP), FILE_MOST=7)
    yield "a fetch into a file with just enough room", told, (0, b"fetched 301\n", b"", POINT_DUMP)


# ---- threads that begin late, or can't be made


def late_threads(program):
    """Yields saves whose thread begins after a second and a half, or can't be made: the dump is whole, as ever."""
    for late in (1500, -1):
        ran, dump = program.save(POINT, LATE=late)
        yield f"a thread {late} ms late", (*ran.told(), dump), (0, POINT_MADE + b"saved 301\n", b"", POINT_DUMP)
        ran, dump = program.save(MANY_POINTS, LATE=late)
        _, whole = program.save(MANY_POINTS)
        told = (ran.status, ran.out.splitlines()[-1:], ran.error, dump == whole)
        yield f"two batches, a thread {late} ms late", told, (0, [b"saved 66412"], b"", True)
        ran, dump = program.save(MANY_POINTS, LATE=late, FILE_LEFT=66_000)
        told = (ran.status, ran.out.splitlines()[-1:], ran.error, dump == (whole or b"")[:66_000])
        yield f"two batches that fail, a thread {late} ms late", told, (1, [b"failed 66000"], b"heapdbg: out\n", True)


CHECKS = (in_parts, few_writes, interrupted, failing_reads, failing_writes, failing_files, failing_written, failing_saves)
CHECKS += (would_block, blocking_saves, blocking_sockets, many_reads, states_left, outlets_that_fail, failing_fetches, late_threads)


def differences(program, check):
    """Returns a line for each run of a check that went otherwise than it must."""
    runs = [(name, came, wanted) for name, came, wanted in check(program)]
    lines = [f"{program.program}, {name}: {came!r:.400}, and must be {wanted!r:.400}" for name, came, wanted in runs if came != wanted]
    return lines or ([] if runs else [f"{check.__name__}: no run"])


def main(programs):
    """Returns the exit status: 0 where every run of every program went as it must."""
    if not programs:
        print("usage: checks/streams.py PROGRAM ..")
        return 2
    with tempfile.TemporaryDirectory() as folder, concurrent.futures.ThreadPoolExecutor() as pool:
        library = library_in(folder)
        asked = [(Program(os.path.abspath(it), library), check) for it in programs for check in CHECKS]
        found = [line for lines in pool.map(lambda one: differences(*one), asked) for line in lines]
    print("\n".join(found), end="\n" if found else "")
    return 1 if found else 0


if __name__ == "__main__":
    sys.exit(main(sys.argv[1:]))
