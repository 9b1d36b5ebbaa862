#!/usr/bin/env python3
"""Runs the built program, and the model, on worked sessions, and compares what comes with what must come.

Usage: checks/cases.py [PROGRAM ..]
A case is checks/sessions/cases/NAME.session with what it must be answered in NAME.expected, and words for `run` in NAME.args if it
needs any; or it is long and made here. A program has each case at once, and a short one byte by byte too.
Prints a line for each difference and ends with status 1 if there is one. Prints nothing where all is well."""
import contextlib
import os
import pathlib
import socket
import subprocess
import sys

TOP = pathlib.Path(__file__).resolve().parent.parent
sys.path.insert(0, str(TOP / "checks/model"))

from session import answers_of  # noqa: E402

# The most seconds that a run may take, and how long a case is at most that is also given byte by byte.
SECONDS = 20
SHORT = 4096


# ---- cases in files


def stored():
    """Yields the cases in files as (name, words, lines, answers)."""
    for path in sorted(TOP.glob("checks/sessions/cases/*.session")):
        file = path.with_suffix(".args")
        words = file.read_text().split() if file.exists() else []
        yield path.stem, words, path.read_bytes(), path.with_suffix(".expected").read_bytes()


# ---- lines, each alone

# Lines that define classes, and what each is answered.
DEFINITIONS = (
    (b"class A\x01 -", b"bad command"),
    (b"class A - x\x7f:int", b"bad command"),
    (b"class A - x:int\xff", b"bad command"),
    (b"array A\t", b"bad command"),
    (b"array", b"bad command"),
    (b"array A B", b"bad command"),
    (b"class A", b"bad command"),
    (b"class A -x", b"bad command"),
    (b"class A - x", b"bad command"),
    (b"class A - x:", b"bad command"),
    (b"class A - x: int", b"bad command"),
    (b"class A 99 x:foo", b"bad command"),
    (b"class A 99 x:int", b"no 2 NoClass"),
    (b"class A - :int", b"no 4 BadName"),
    (b"array a:b", b"no 4 BadName"),
    (b"array A\r", b"ok class 0"),
    (b"  class  A  -  x:int  y:object ", b"ok class 0"),
    # The most fields that a line may have, all without a name, and one more.
    (b"class A 9" + b" :int" * 817, b"no 2 NoClass"),
    (b"class A 9" + b" :int" * 818, b"bad long"),
)
# Classes by how many fields they have, and which of these has the name of which earlier one, and what they are answered.
MANY_FIELDS = (
    (16, 0, 0, b"ok class 0"),
    (16, 0, 15, b"no 5 DuplicateName"),
    (17, 0, 0, b"ok class 0"),
    (17, 0, 16, b"no 5 DuplicateName"),
    (64, 0, 0, b"ok class 0"),
    (64, 62, 63, b"no 5 DuplicateName"),
    (65, 0, 0, b"no 6 FieldLimit"),
    (65, 0, 1, b"no 5 DuplicateName"),
    (583, 0, 0, b"no 6 FieldLimit"),
    (583, 0, 582, b"no 5 DuplicateName"),
    (583, 291, 292, b"no 5 DuplicateName"),
    (583, 581, 582, b"no 5 DuplicateName"),
)
LETTERS = "abcdefghijklmnopqrstuvwxyz"


def alone():
    """Yields the lines as cases."""
    for line, answer in DEFINITIONS:
        yield f"the line {line!r:.60}", ["--regions", "1", "--keep", "1"], line + b"\n", answer + b"\n"
    for count, earlier, later, answer in MANY_FIELDS:
        named = [earlier if place == later else place for place in range(count)]
        fields = "".join(f" {LETTERS[place // 26]}{LETTERS[place % 26]}:int" for place in named)
        yield f"{count} fields, {earlier} and {later}", ["--keep", "1"], f"class A -{fields}\n".encode(), answer + b"\n"


# ---- long cases, put together from the description of the format


def number(width, value):
    """Returns the bytes of a number."""
    return value.to_bytes(width, "big")


def record(tag, body):
    """Returns a record, at time 0."""
    return number(1, tag) + number(4, 0) + number(4, len(body)) + body


def header(ids):
    """Returns the header of a dump, of time 0."""
    return b"JAVA PROFILE 1.0.2\0" + number(4, ids) + number(8, 0)


TRACE = record(0x05, bytes.fromhex("00000001 00000000 00000000"))
END = record(0x2C, b"")


def dumped(pieces):
    """Returns the answer to `dump -` that has these pieces."""
    lines = [f"data {piece[at:at + 64].hex()}\n" for piece in pieces for at in range(0, len(piece), 64)]
    return "".join(lines) + f"ok dump {sum(map(len, pieces))}\n"


def zeros(region, code, width, length):
    """Returns the sub-record of an array of `length` zeros, which is the first object of a region."""
    word = number(8, 0x10000000 + 0x2000 * region)
    return b"\x23" + word + number(4, 1) + number(4, length) + number(1, code) + bytes(width * length)


def roots(regions):
    """Returns the roots of the first objects of the first regions."""
    return b"".join(b"\xff" + number(8, 0x10000000 + 0x2000 * region) for region in range(regions))


def of_arrays(name, kind, code, width, lengths, bodies, total):
    """Returns the case of arrays in a region each and a dump. `bodies` tells how many of them each segment has, and whether the
    roots are in the last of these segments or in one more."""
    lines = "".join(f"newprim 0 {r} {kind} {length}\n" for r, length in enumerate(lengths)) + "dump -\n"
    answers = "".join(f"ok object 0x{0x10000000 + 0x2000 * r:08x}\n" for r in range(len(lengths)))
    texts = [zeros(r, code, width, length) for r, length in enumerate(lengths)] + [roots(len(lengths))]
    pieces, at = [header(8) + TRACE], 0
    for count in bodies:
        pieces.append(record(0x1C, b"".join(texts[at : at + count])))
        at += count
    answers += dumped([*pieces, END])
    assert answers.endswith(f"ok dump {total}\n"), name
    return name, [], lines, answers


def of_points(name, ids, opening, klass, values, counts, total):
    """Returns the case of 2,000 points in one register and a dump, with the points of `counts` in its segments."""
    points = [0x10000000 + 0x20 * index for index in range(2000)]
    answers = "ok class 0\n" + "".join(f"ok object 0x{point:08x}\n" for point in points)
    bodies, at = [], 0
    for count in counts:
        bodies.append(b"".join(b"\x21" + number(ids, point) + bytes.fromhex(values) for point in points[at : at + count]))
        at += count
    bodies[0] = bytes.fromhex(klass) + bodies[0]
    bodies[-1] += b"\xff" + number(ids, points[-1])
    answers += dumped([bytes.fromhex(opening), *(record(0x1C, body) for body in bodies), END])
    assert at == 2000 and answers.endswith(f"ok dump {total}\n"), name
    return name, ["--ids", str(ids)], "class Point - x:int y:int\n" + "new 0 0 0\n" * 2000 + "dump -\n", answers


EIGHT_BYTE_POINTS = (
    "4a4156412050524f46494c4520312e302e320000000008000000000000000001000000000000000d0000000000000001506f696e74010000"
    "0000000000090000000000000002780100000000000000090000000000000003790200000000000000180000000100000000001000000000"
    "0001000000000000000105000000000000000c000000010000000000000000",
    "2000000000001000000000000100000000000000000000000000000000000000000000000000000000000000000000000000000000000000"
    "00000000000000000800000000000200000000000000020a00000000000000030a050000000000100000",
    "000000010000000000100000000000080000000000000000",
    [121, *[124] * 15, 19],
    66412,
)
FOUR_BYTE_POINTS = (
    "4a4156412050524f46494c4520312e302e320000000004000000000000000001000000000000000900000001506f696e7401000000000000"
    "0005000000027801000000000000000500000003790200000000000000100000000100100000000000010000000105000000000000000c00"
    "0000010000000000000000",
    "20001000000000000100000000000000000000000000000000000000000000000000000008000000000002000000020a000000030a050010"
    "0000",
    "0000000100100000000000080000000000000000",
    [161, *[163] * 11, 46],
    50312,
)


def of_names():
    """Returns the case of 18 classes with 64 fields each, all of other names, n0001 and so on, and a dump."""
    names = [f"n{index:04}" for index in range(1, 1171)]
    opening = header(8) + b"".join(record(0x01, number(8, index) + name.encode()) for index, name in enumerate(names, 1))
    lines, answers, bodies = "", "", []
    for index in range(18):
        first = 65 * index
        fields = range(first + 1, first + 65)
        lines += " ".join([f"class {names[first]} -", *(f"{names[field]}:long" for field in fields)]) + "\n"
        answers += f"ok class {index}\n"
        word = number(8, 0x100000 + 8 * index)
        opening += record(0x02, number(4, index + 1) + word + number(4, 1) + number(8, first + 1))
        body = b"\x20" + word + number(4, 1) + bytes(48) + number(4, 512) + bytes(4) + number(2, 64)
        bodies.append(body + b"".join(number(8, field + 1) + b"\x0b" for field in fields))
    bodies += [b"\x05" + number(8, 0x100000 + 8 * index) for index in range(18)]
    # A class has 647 bytes and its root 9, so six classes fit into a segment of 4,096, and all roots into the third.
    segments = [record(0x1C, b"".join(part)) for part in (bodies[:6], bodies[6:12], bodies[12:])]
    return "a_thousand_names", [], lines + "dump -\n", answers + dumped([opening + TRACE, *segments, END])


class Script:
    """Lines over nodes in cells of 4 words, and their answers."""

    def __init__(self):
        self.lines, self.answers = "", ""

    def add(self, lines, answers, times=1):
        self.lines += lines * times
        self.answers += answers * times

    def add_object(self, line, index):
        """Adds a line that is answered with the object in a cell, counted over all regions."""
        self.add(line, f"ok object 0x{0x10000000 + 32 * index:08x}\n")

    def add_list(self, count):
        """Adds a list of nodes, each of which holds its number, the last of them first; registers 0 and 1 name it."""
        self.add("class Node - next:object v:long\n", "ok class 0\n")
        for index in range(count):
            self.add_object("new 0 1 0\n", index)
            self.add(f"put 0 1 1 {index}\nstore 0 1 0 0\nmove 0 0 0 1\n", "ok\nok\nok\n")

    def add_walk(self, count):
        """Adds a walk over the whole list in register 0."""
        for index in reversed(range(count)):
            self.add("load 0 1 0 1\n", f"ok value {index}\n")
            if index:
                self.add_object("load 0 0 0 0\n", index - 1)
        self.add("load 0 0 0 0\n", "ok null\n")


def of_a_long_log():
    """Returns the case of a list that a cycle's log holds whole: drained, marked, and all of it undone."""
    script = Script()
    script.add_list(1101)
    script.add("snap\n", "ok pushed 1\n")
    for index in reversed(range(1100)):
        script.add_object("load 0 1 0 0\n", index)
        script.add("store 0 0 0 2\nmove 0 0 0 1\n", "ok\nok\n")
    script.add("finish\n", "no 18 NotDone 1 1100\n")
    script.add("drain\n", "ok pushed 1\n", 1100)
    script.add("drain\n", "no 17 NothingToDrain\n")
    script.add("mark\n", "ok pushed 0\n", 1101)
    script.add("finish\n", "ok condemned 0\n")
    # Back to where nothing was drained, and then to the first entry of the log and to none.
    script.add("rewind 2202\nfinish\ndrain\n", "ok place 7706\nno 18 NotDone 1 1100\nok pushed 1\n")
    script.add("rewind 3298\nfinish\ndrain\nmark\n", "ok place 4409\nno 18 NotDone 1 1\nok pushed 1\nok pushed 1\n")
    script.add("rewind 5\nfinish\nrewind 1\n", "ok place 4406\nno 18 NotDone 1 0\nok place 4405\n")
    script.add_walk(1101)
    return "a_long_log_is_rewound", ["--regions", "8", "--keep", "16384"], script.lines, script.answers


def of_a_full_region():
    """Returns the case of a full region of which a sweep leaves node 100 alone, and which is filled again; all undone."""
    script = Script()
    script.add_list(256)
    script.add("move 0 2 0 0\n", "ok\n")
    for index in reversed(range(100, 255)):
        script.add_object("load 0 2 2 0\n", index)
    script.add("store 0 2 0 3\nclear 0 0\nclear 0 1\n", "ok\nok\nok\n")
    script.add("snap\nmark\nfinish\n", "ok pushed 1\nok pushed 0\nok condemned 255\n")
    script.add("new 0 3 0\nsweep 0\nload 0 4 2 1\n", "no 13 HeapFull\nok swept 255\nok value 100\n")
    for index in reversed(range(256)):
        if index != 100:
            script.add_object("new 0 3 0\n", index)
    script.add("new 0 3 0\nrewind 257\nnew 0 3 0\n", "no 13 HeapFull\nok place 1187\nno 13 HeapFull\n")
    script.add("sweep 0\nsweep 0\n", "ok swept 255\nno 20 NothingToSweep 0\n")
    script.add("rewind 1\nrewind 162\n", "ok place 1187\nok place 1025\n")
    script.add_walk(256)
    return "a_full_region_goes_and_comes_back", ["--regions", "1", "--keep", "16384"], script.lines, script.answers


def tell_free_cells(script, place):
    """Has nodes and arrays fill the free cells of the first two regions, of which each has all but its cell 0 free in order, and
    no more; then all that is undone."""
    for index in range(1, 256):
        script.add_object("new 0 3 0\n", index)
    for index in range(1, 64):
        script.add("newprim 0 3 long 5\n", f"ok object 0x{0x10002000 + 128 * index:08x}\n")
    script.add("new 0 3 0\nnewprim 0 3 long 5\nnewprim 0 3 long 17\n", "no 13 HeapFull\n" * 3)
    script.add("rewind 318\n", f"ok place {place}\n")


def tell_cycle_end(script):
    """Tells that no cycle runs, and that both regions wait to be swept: the node is dead, the array of five longs is live."""
    script.add("clear 0 7\nload 0 0 0 0\nmark\nload 0 2 1 4\n", "ok\nno 8 NullRegister\nno 15 NotMarking\nok value 0\n")
    script.add("sweep 1\nsweep 1\nsweep 0\n", "ok swept 0\nno 20 NothingToSweep 1\nok swept 1 empty\n")
    script.add("rewind 4\n", "ok place 7\n")
    tell_free_cells(script, 7)


def tell_snapped(script):
    """Tells that one object is gray, nothing is logged, and both regions still wait."""
    script.add("finish\nmark\nmark\ndrain\n", "no 18 NotDone 1 0\nok pushed 0\nno 16 NothingToMark\nno 17 NothingToDrain\n")
    script.add("finish\nrewind 1\n", "no 19 SweepPending 0\nok place 8\n")
    tell_free_cells(script, 8)


def tell_swept(script):
    """Tells that the first region is empty, so that each cell size finds room there, and that the second waits."""
    script.add("sweep 0\nmark\nfinish\n", "no 20 NothingToSweep 0\nok pushed 0\nno 19 SweepPending 1\n")
    script.add("newprim 0 3 long 1024\n" * 2 + "rewind 1\n", "ok object 0x10000000\nno 13 HeapFull\nok place 10\n")
    script.add("newprim 0 3 long 65\nrewind 1\n", "ok object 0x10000000\nok place 10\n")
    script.add("new 0 3 0\nrewind 2\n", "ok object 0x10000000\nok place 9\n")


def tell_taken(script):
    """Tells that the array of 17 longs lies in the first region, which doesn't wait and has its other cells free in order."""
    script.add("load 0 2 0 16\nload 0 2 0 17\nsweep 0\n", "ok value 0\nno 9 BadSlot\nno 20 NothingToSweep 0\n")
    for index in range(1, 16):
        script.add("newprim 0 3 long 17\n", f"ok object 0x{0x10000000 + 512 * index:08x}\n")
    script.add("newprim 0 3 long 17\nnew 0 3 0\nrewind 16\n", "no 13 HeapFull\nno 13 HeapFull\nok place 10\n")


def of_reuse():
    """Returns the case of a region that a sweep empties and an array takes, and of undoing all that. What the heap holds is told
    after each step, there and back, by steps that are then undone."""
    script = Script()
    script.add("class Node - next:object v:long\nnew 0 0 0\n", "ok class 0\nok object 0x10000000\n")
    script.add("newprim 0 1 long 5\nclear 0 0\nsnap\nmark\n", "ok object 0x10002000\nok\nok pushed 1\nok pushed 0\n")
    script.add("finish\n", "ok condemned 1\n")
    tell_cycle_end(script)
    script.add("snap\n", "ok pushed 1\n")
    tell_snapped(script)
    script.add("sweep 0\n", "ok swept 1 empty\n")
    tell_swept(script)
    script.add("newprim 0 0 long 17\n", "ok object 0x10000000\n")
    tell_taken(script)
    script.add("rewind 1\n", "ok place 9\n")
    tell_swept(script)
    script.add("rewind 1\n", "ok place 8\n")
    tell_snapped(script)
    script.add("rewind 1\n", "ok place 7\n")
    tell_cycle_end(script)
    return "sweep_and_reuse_told", ["--regions", "2"], script.lines, script.answers


def made():
    """Yields the long cases as (name, words, lines, answers)."""
    cases = [
        of_arrays("segment_of_one_large_array", "long", 11, 8, [1024], [1, 1], 8298),
        of_arrays("segment_exactly_full", "byte", 8, 1, [1006] * 4, [4, 1], 4211),
        of_arrays("segment_one_byte_more", "byte", 8, 1, [1006] * 3 + [1007], [3, 2], 4212),
        of_points("segments_of_many_points", 8, *EIGHT_BYTE_POINTS),
        of_points("four_byte_segments_of_many_points", 4, *FOUR_BYTE_POINTS),
        of_names(),
        of_a_long_log(),
        of_a_full_region(),
        of_reuse(),
    ]
    for name, words, lines, answers in cases:
        yield name, words, lines.encode(), answers.encode()


# ---- runs


def of_model(words, lines):
    """Returns what the model answers, and the status with which a program has to end."""
    options = dict(zip(words[::2], words[1::2]))
    answers, ending = answers_of(lines, **{option[2:]: int(value) for option, value in options.items()})
    return b"".join(answers), int(ending in ("cut", "long"))


def at_once(program, words, lines):
    """Returns what a program answers to all lines at once, and its status."""
    ran = subprocess.run([program, "run", *words], input=lines, capture_output=True, timeout=SECONDS)
    return ran.stdout, ran.returncode


def byte_by_byte(program, words, lines):
    """Returns what a program answers that reads a byte at a time, and its status."""
    ours, theirs = socket.socketpair(socket.AF_UNIX, socket.SOCK_SEQPACKET)
    with ours, subprocess.Popen([program, "run", *words], stdin=theirs, stdout=subprocess.PIPE, stderr=subprocess.DEVNULL) as child:
        theirs.close()
        with contextlib.suppress(OSError):
            for byte in lines:
                ours.send(bytes([byte]))
        ours.close()
        out, _ = child.communicate(timeout=SECONDS)
    return out, child.returncode


def difference(came, wanted):
    """Returns where answers differ first."""
    ours, theirs = came.split(b"\n"), wanted.split(b"\n")
    at = next((at for at, (one, other) in enumerate(zip(ours, theirs)) if one != other), min(len(ours), len(theirs)))
    one, other = (b"".join(part[at : at + 1]).decode(errors="replace") for part in (ours, theirs))
    return f"line {at + 1} of the answers is {one!r:.200}, and must be {other!r:.200}"


def differences(programs):
    """Yields a line for each case that is answered otherwise than it must be."""
    for name, words, lines, wanted in [*stored(), *alone(), *made()]:
        runs = [("the model", of_model(words, lines))]
        for program in programs:
            runs.append((program, at_once(program, words, lines)))
            if len(lines) + len(wanted) < SHORT:
                runs.append((f"{program} byte by byte", byte_by_byte(program, words, lines)))
        status = int(wanted.endswith((b"bad cut\n", b"bad long\n")))
        for who, (came, ended) in runs:
            if came != wanted:
                yield f"{who}, {name}: {difference(came, wanted)}"
            elif ended != status:
                yield f"{who}, {name}: the status is {ended}, and must be {status}"


def main(programs):
    """Returns the exit status: 0 where every case is answered as it must be."""
    found = list(differences([os.path.abspath(program) for program in programs]))
    print("\n".join(found), end="\n" if found else "")
    return 1 if found else 0


if __name__ == "__main__":
    sys.exit(main(sys.argv[1:]))
