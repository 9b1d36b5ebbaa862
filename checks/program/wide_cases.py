"""Cases of wide heaps, and of what others refuse."""
import os
import tempfile

from clients import ended, served, told_all
from ports import free_port
from explore_cases import run_after
from run_cases import read_by_one
from runs import run
from save_cases import saved

# Names that only a wide heap allows, and names that none does.
WIDE_NAMES = (b"n" * 65, b"n" * 255, b"map<int,[]>", b'"a|b"', b"-", b"~!@#%^&*()+=?\\'`{}")
NO_NAMES = (b"n" * 256, b"a:b", b":")


def classes(count):
    """Returns lines that define `count` classes, and what they are answered where all are allowed."""
    lines = b"".join(b"class C%d -\n" % number for number in range(count))
    return lines, b"".join(b"ok class %d\n" % number for number in range(count))


def arrays(count):
    """Returns lines that fill `count` regions with an array each, and the answers to them if the heap has that many regions."""
    return b"newprim 0 0 long 1024\n" * count, b"".join(b"ok object 0x%08x\n" % (0x10000000 + 8192 * number) for number in range(count))


def pins(count):
    """Returns lines that open `count` pins, and what they are answered where all are allowed."""
    return b"open -\n" * count, b"".join(b"ok pin %d at 0\n" % number for number in range(1, count + 1))


def limits_of_a_wide_heap(program):
    """Yields sessions at the limits of a wide heap."""
    lines, answers = classes(4096)
    wanted = answers + b"no 3 ClassLimit\nno 3 ClassLimit\n"
    yield "4,096 classes", run(program, ["run", "--wide", "1"], lines + b"class D -\narray E\n"), (0, wanted, b"")
    lines, answers = arrays(257)
    ran = run(program, ["run", "--wide", "1", "--regions", "257"], lines + b"newprim 0 0 long 1\n")
    yield "257 regions", ran, (0, answers + b"no 13 HeapFull\n", b"")
    lines, answers = pins(64)
    yield "64 pins", run(program, ["run", "--wide=1"], lines + b"open -\n"), (0, answers + b"no 25 PinLimit\n", b"")
    for name in WIDE_NAMES:
        ran = run(program, ["run", "--wide", "1"], b"class %s - %s:int\narray x%s\n" % (name, name, name[1:]))
        yield f"the name {name!r:.40} in a wide heap", ran, (0, b"ok class 0\nok class 1\n", b"")
    for name in NO_NAMES:
        ran = run(program, ["run", "--wide", "1"], b"array %s\n" % name)
        yield f"the name {name!r:.40} in a wide heap", ran, (0, b"no 4 BadName\n", b"")
    elements = b"newprim 0 0 byte 1025\nnewprim 0 0 byte 1024\n"
    yield "elements", run(program, ["run", "--wide", "1"], elements), (0, b"no 12 TooLarge\nok object 0x10000000\n", b"")
    kept = b"clear 0 0\n" * 65_538 + b"rewind 65538\nrewind 65537\n"
    ran = run(program, ["run", "--keep", "65537", "--wide", "1"], kept)
    yield "65,537 steps", ran, (0, b"ok\n" * 65_538 + b"no 21 TooFar 65538 65537\nok place 1\n", b"")
    for words in (["--regions", "65536", "--keep", "1"], ["--regions", "1", "--keep", "16777216"]):
        yield " ".join(words), run(program, ["run", "--wide", "1", *words], b"clear 0 0\n"), (0, b"ok\n", b"")


def limits_of_other_heaps(program):
    """Yields sessions at the limits of a heap that isn't wide, which `--wide 0` leaves as they are."""
    for words in ([], ["--wide", "0"]):
        lines, answers = classes(256)
        wanted = answers + b"no 3 ClassLimit\nno 3 ClassLimit\n"
        yield f"256 classes {words}", run(program, ["run", *words], lines + b"class D -\narray E\n"), (0, wanted, b"")
        lines, answers = pins(4)
        yield f"4 pins {words}", run(program, ["run", *words], lines + b"open -\n"), (0, answers + b"no 25 PinLimit\n", b"")
        for name in WIDE_NAMES + NO_NAMES:
            yield f"the name {name!r:.40} {words}", run(program, ["run", *words], b"array %s\n" % name), (0, b"no 4 BadName\n", b"")


def reads(program):
    """Yields sessions at the most reads that a heap which isn't wide allows, and beyond it. In a file each line is read alone, and
    an LF by one read; the last read finds the end."""
    for words in ([], ["--wide", "0"]):
        ended = (1, b"bad reads\n", b"heapdbg: reads\n")
        yield f"1,000,000 reads {words}", read_by_one(program, 1_000_000, False, *words), ended
        said = b"heapdbg: PATH:999999: bad command: q\n"
        yield f"999,999 lines first {words}", run_after(program, b"\n" * 999_998 + b"q\n", b"", *words), (0, b"", said)
        said = b"heapdbg: PATH:1000000: a session has at most 1000000 reads\n"
        yield f"1,000,001 lines first {words}", run_after(program, b"\n" * 1_000_000 + b"q\n", b"", *words), (0, b"", said)
    wide = ["--wide", "1"]
    yield "1,000,001 reads of a wide heap", read_by_one(program, 1_000_001, True, *wide), (0, b"", b"")
    asked = read_by_one(program, 1_000_001, True, "--questions", "1", *wide)
    yield "1,000,001 reads of a wide heap with questions", asked, (0, b"", b"")
    for words, count, wanted in (([], 1_000_000, (1, b"bad reads\n")), (wide, 1_000_001, (0, b""))):
        beside = read_by_one(program, count, bool(words), "--page", str(free_port()), *words, task="explore")
        yield f"{count} reads beside a page {words}", beside[:2], wanted
    said = b"heapdbg: PATH:1000001: bad command: q\n"
    yield "1,000,001 lines first in a wide heap", run_after(program, b"\n" * 1_000_000 + b"q\n", b"", *wide), (0, b"", said)


def long_lines(program):
    """Yields sessions with lines as long as each heap allows, and longer by one byte, by each command that reads lines."""
    long = (1, b"bad long\n", b"heapdbg: long\n")
    for words, most in (([], 4096), (["--wide", "0"], 4096), (["--wide", "1"], 32_768)):
        at, over = b"a" * most + b"\nsnap\n", b"a" * (most + 1)
        said = b"bad command\nok pushed 0\n"
        for more in ([], ["--questions", "1"]):
            yield f"{most} bytes {words} {more}", run(program, ["run", *more, *words], at), (0, said, b"")
            yield f"{most + 1} bytes {words} {more}", run(program, ["run", *more, *words], over), long
        spaces = b"snap" + b" " * (most - 5) + b"\r\n"
        yield f"{most} bytes with a CR {words}", run(program, ["run", *words], spaces), (0, b"ok pushed 0\n", b"")
        yield f"{most + 1} bytes and an LF {words}", run(program, ["run", *words], b" " + spaces), long
        first = run_after(program, spaces, b"mark\n", *words)
        yield f"{most} bytes first {words}", first, (0, b"no 16 NothingToMark\n", b"")
        first = run_after(program, b"clear 0 0\n " + spaces, b"mark\n", *words)
        error = b"heapdbg: PATH:2: the line is too long\n"
        yield f"{most + 1} bytes first {words}", first, (0, b"no 15 NotMarking\n", error)
        quits, too_long = (0, b"session 1 quit\n", b"", said), (0, b"session 1 long\n", b"", b"bad long\n")
        yield f"{most} bytes served {words}", served(program, told_all(at), words), quits
        yield f"{most + 1} bytes served {words}", served(program, ended(over), words), too_long
        later = (0, b"session 1 long\n", b"", b"ok pushed 0\nbad long\n")
        yield f"{most + 1} bytes served later {words}", served(program, ended(b"snap\n" + over), words), later
        asks = b"a" * (most - 9) + b" HTTP/1.1\n"
        yield f"HTTP in {most} bytes {words}", served(program, ended(asks), words), (0, b"session 1 http\n", b"", b"")
        yield f"HTTP in {most + 1} bytes {words}", served(program, ended(b"a" + asks), words), too_long
    fields = b" ".join(b"%s:int" % (b"%d" % number).rjust(255, b"n") for number in range(64))
    ran = run(program, ["run", "--wide", "1"], b"class L - %s\nclass M 0 x:int\n" % fields)
    yield "a class of 64 long names", ran, (0, b"ok class 0\nno 6 FieldLimit\n", b"")
    many = b" ".join(b"%x:int" % number for number in range(3600))
    ran = run(program, ["run", "--wide", "1"], b"class L - %s\nclass M - %s a:int\n" % (many, many))
    yield "a line of 3,600 fields", ran, (0, b"no 6 FieldLimit\nno 5 DuplicateName\n", b"")
    nameless = b"class L -" + b" :int" * 6551 + b"\n"
    yield "a line of 6,551 fields", run(program, ["run", "--wide", "1"], nameless), (0, b"no 4 BadName\n", b"")


def wide_heaps(program):
    """Yields sessions of wide heaps, by each command that opens one, and of others, as (name, what happened, what must happen)."""
    yield from limits_of_a_wide_heap(program)
    yield from limits_of_other_heaps(program)
    yield from reads(program)
    yield from long_lines(program)
    lines, answers = classes(257)
    wanted = (0, answers, b"")
    yield "explore --wide 1", run(program, ["explore", "--wide", "1"], lines), wanted
    yield "serve --wide 1", served(program, told_all(lines), ["--wide", "1"]), (0, b"session 1 quit\n", b"", answers)
    with tempfile.TemporaryDirectory() as folder:
        path = os.path.join(folder, "heap.svg")
        yield "draw --wide 1", run(program, ["draw", "--out", path, "--wide", "1"], lines), wanted
        status, out, error, dump = saved(program, os.path.join(folder, "heap.hprof"), lines, ["--wide", "1"])
        yield "save --wide 1", (status, out, error, dump.count(b"C256")), (0, answers + b"saved %d\n" % len(dump), b"", 1)
