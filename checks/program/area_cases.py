"""Cases of heaps with an area, whose arrays may have more than 1,024 elements."""
import os
import tempfile

from clients import served, told_all
from explore_cases import run_after
from runs import data_lines, record, run
from save_cases import saved

# A heap of four regions, of which the last three are the area.
AREA = ["--wide", "--regions", "4", "--area", "3"]
FIRST, SECOND, THIRD, FOURTH = (b"0x%08x" % (0x10000000 + 8192 * number) for number in range(4))
MOST = 2_097_147
OPENING = b"JAVA PROFILE 1.0.2\0" + bytes.fromhex("00000008 0000000000000000")
OPENING += record(0x05, bytes.fromhex("00000001 00000000 00000000"))


def made(*ids):
    """Returns the replies to lines that make objects with these ids."""
    return b"".join(b"ok object %s\n" % each for each in ids)


def dump_replies(*segments):
    """Returns the replies to `dump -`, by the sub-records of each segment."""
    pieces = [OPENING, *(record(0x1C, body) for body in segments), record(0x2C, b"")]
    return b"".join(map(data_lines, pieces)) + b"ok dump %d\n" % sum(map(len, pieces))


def long_array(number, values):
    """Returns the sub-record of an array of longs in a region."""
    head = b"\x23" + (0x10000000 + 8192 * number).to_bytes(8, "big") + bytes.fromhex("00000001")
    return head + len(values).to_bytes(4, "big") + b"\x0b" + b"".join(value.to_bytes(8, "big") for value in values)


def root(number):
    """Returns the sub-record of a register that names the first object of a region."""
    return b"\xff" + (0x10000000 + 8192 * number).to_bytes(8, "big")


def places(program):
    """Yields sessions that tell where large objects lie, and what is refused."""
    lines = b"newprim 0 0 long 1025\nnewprim 0 1 byte 1024\nnewprim 0 2 byte 1025\nnewprim 0 2 byte 1024\nnewprim 0 3 long 1\n"
    wanted = made(SECOND, FIRST) + b"no 13 HeapFull\nno 13 HeapFull\nno 13 HeapFull\n"
    yield "a run of two regions", run(program, ["run", *AREA], lines), (0, wanted, b"")
    lines = b"newprim 0 0 long 3072\nrewind 1\nnewprim 0 0 int 2048\nrewind 1\nnewprim 0 0 int 3073\nnewprim 0 0 char 3072\n"
    wanted = made(SECOND) + b"ok place 0\n" + made(SECOND) + b"ok place 0\nno 13 HeapFull\n" + made(SECOND)
    yield "a rewind over a large object", run(program, ["run", *AREA], lines), (0, wanted, b"")
    lines = b"array A\n" + b"newarray 0 %d 0 1025\n" * 3 % (0, 1, 2) + b"clear 0 1\nsnap\nmark\nmark\nfinish\n"
    lines += b"sweep 1\nsweep 3\nsweep 2\nnewarray 0 1 0 2048\nnewarray 0 1 0 2049\n"
    words = ["--wide", "--regions", "8", "--area", "7"]
    ids = [b"0x%08x" % (0x10000000 + 8192 * number) for number in (1, 3, 5)]
    wanted = b"ok class 0\n" + made(*ids) + b"ok\nok pushed 2\nok pushed 0\nok pushed 0\nok condemned 1\nok swept 0\nok swept 1 empty\n"
    wanted += b"no 20 NothingToSweep 2\n" + made(ids[1]) + b"no 13 HeapFull\n"
    yield "a large object swept", run(program, ["run", *words], lines), (0, wanted, b"")
    lines = b"newprim 0 0 byte %d\nnewprim 0 0 byte %d\nput 0 0 %d 255\nload 0 1 0 %d\nload 0 1 0 0\nput 0 0 %d 1\n"
    lines %= MOST + 1, MOST, MOST - 1, MOST - 1, MOST
    wanted = b"no 12 TooLarge\n" + made(SECOND) + b"ok\nok value 255\nok value 0\nno 9 BadSlot\n"
    yield "the largest array", run(program, ["run", "--wide", "--regions", "2049", "--area=2k"], lines), (0, wanted, b"")
    few = run(program, ["run", "--wide", "--regions", "2048", "--area", "2047"], b"newprim 0 0 byte %d\n" % MOST)
    yield "too few regions for it", few, (0, b"no 13 HeapFull\n", b"")


def dumps(program):
    """Yields sessions that dump large arrays, each of which has a segment to itself."""
    lines = b"newprim 0 0 long 1025\nput 0 0 1024 7\nput 0 0 0 258\ndump -\n"
    wanted = made(SECOND) + b"ok\nok\n" + dump_replies(long_array(1, [258, *[0] * 1023, 7]), root(1))
    yield "a dump of a large array", run(program, ["run", *AREA], lines), (0, wanted, b"")
    lines = b"newprim 0 0 long 1025\nput 0 0 3 9\nopen -\nput 0 0 3 4\nput 0 0 1024 5\nnewprim 0 1 long 1\nrewind 1\nsnap\ndump 1\ndump -\n"
    before, after = [0, 0, 0, 9, *[0] * 1021], [0, 0, 0, 4, *[0] * 1020, 5]
    wanted = made(SECOND) + b"ok\nok pin 1 at 2\nok\nok\n" + made(FIRST) + b"ok place 4\nok pushed 1\n"
    wanted += dump_replies(long_array(1, before), root(1)) + dump_replies(long_array(1, after), root(1))
    yield "a pin beside writes of a large array", run(program, ["run", *AREA], lines), (0, wanted, b"")
    lines = b"newprim 0 0 long 2048\nnewprim 0 1 long 2\nclear 0 0\nopen -\nsnap\nmark\nfinish\nsweep 1\nnewprim 0 0 long 1025\nput 0 0 1 8\ndump 1\n"
    wanted = made(SECOND, FIRST) + b"ok\nok pin 1 at 3\nok pushed 1\nok pushed 0\nok condemned 1\nok swept 1 empty\n" + made(SECOND) + b"ok\n"
    wanted += dump_replies(long_array(0, [0, 0]), long_array(1, [0] * 2048), root(0))
    yield "a pin beside a sweep of a large array", run(program, ["run", *AREA], lines), (0, wanted, b"")


def answers(program):
    """Yields questions about large objects."""
    lines = b"newprim 0 0 byte 2000\nregions\ncells\nshow 0x10002008\nborn 0x10002000\nhistogram\nsnap\ncells\n"
    wanted = made(SECOND) + b"row 1 2048 1 1 0 -\nok 1\nrow 1 2048 - o\nok 1\nno 28 NoObject\nok place 1\nrow 1 2000 byte[]\nok 1 2000\n"
    wanted += b"ok pushed 1\nrow 1 2048 - g\nok 1\n"
    yield "questions about a large object", run(program, ["explore", *AREA], lines), (0, wanted, b"")
    yield from slots(program)


def slots(program):
    """Yields questions about some slots of the largest array."""
    asked = b"show 0x10002000 %d 3\nshow - 0x10002000 %d 1000\nshow 0x10002000 %d 1\nput 0 0 1024 9\nshow 0x10002000 1023 2\nshow @2 0x10002000 1024 1\n"
    lines = b"newprim 0 0 byte %d\nput 0 0 %d 255\n" % (MOST, MOST - 1) + asked % (MOST - 2, MOST - 1, MOST)
    last = b"row %d %d byte 255\n" % (MOST - 1, MOST - 1)
    end = b"ok object byte[] %d\n" % MOST
    wanted = made(SECOND) + b"ok\n" + b"row %d %d byte 0\n" % (MOST - 2, MOST - 2) + last + end + last + end + end + b"ok\n"
    wanted += b"row 1023 1023 byte 0\nrow 1024 1024 byte 9\n" + end + b"row 1024 1024 byte 0\n" + end
    words = ["explore", "--wide", "--regions", "2049", "--area=2k"]
    yield "slots of the largest array", run(program, words, lines), (0, wanted, b"")


def areas(program):
    """Yields sessions of heaps with an area, by each command that opens one, as (name, what happened, what must happen)."""
    yield from places(program)
    yield from dumps(program)
    yield from answers(program)
    lines, wanted = b"newprim 0 0 byte 2000\n", made(SECOND)
    for words in ([], ["--area", "0"], ["--wide"], ["--wide", "--area=0"], ["--wide", "0", "--area", "000"]):
        yield f"no area {words}", run(program, ["run", *words], lines), (0, b"no 12 TooLarge\n", b"")
    yield "explore --area", run(program, ["explore", *AREA], lines), (0, wanted, b"")
    yield "lines first in an area", run_after(program, lines, b"newprim 0 1 byte 2000\n", *AREA), (0, b"no 13 HeapFull\n", b"")
    yield "serve --area", served(program, told_all(lines), AREA), (0, b"session 1 quit\n", b"", wanted)
    with tempfile.TemporaryDirectory() as folder:
        path = os.path.join(folder, "heap.svg")
        yield "draw --area", run(program, ["draw", "--out", path, *AREA], lines), (0, wanted, b"")
        status, out, error, dump = saved(program, os.path.join(folder, "heap.hprof"), lines, AREA)
        array = b"\x23" + root(1)[1:] + bytes.fromhex("00000001 000007d0 08") + bytes(2000)
        whole = OPENING + record(0x1C, array + root(1)) + record(0x2C, b"")
        yield "save --area", (status, out, error, dump), (0, wanted + b"saved 2097\n", b"", whole)
