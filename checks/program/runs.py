"""Runs of the program, and what its sessions and dumps are made of."""
import os
import pathlib
import resource
import subprocess

TOP = pathlib.Path(__file__).resolve().parent.parent.parent
EXAMPLE = (TOP / "examples/point.session").read_bytes()
EXAMPLE_REPLIES = (TOP / "crates/heapdbg/stdout").read_bytes()
# The lines of the example that make the point, and what they are answered.
POINT = b"".join(EXAMPLE.splitlines(keepends=True)[:3])
POINT_MADE = b"".join(EXAMPLE_REPLIES.splitlines(keepends=True)[:3])

MEBIBYTE = 1 << 20
# The most seconds that a run, an answer or a connection may take.
SECONDS = 20


def data_lines(piece):
    """Returns the data lines of a piece of a dump."""
    return b"".join(b"data %s\n" % piece[at : at + 64].hex().encode() for at in range(0, len(piece), 64))


def record(tag, body):
    """Returns a record of a dump, at time 0."""
    return bytes([tag]) + bytes(4) + len(body).to_bytes(4, "big") + body


def dump_of_longs(count, size=8, time=0):
    """Returns the replies to a new array of `count` longs, all 0, and to the dump of that heap with ids of `size` bytes and a
    time. The array and its root stand in one segment if they have at most 4,096 bytes, and else in one each."""
    object_id = 0x10000000.to_bytes(size, "big")
    array = b"\x23" + object_id + bytes.fromhex("00000001") + count.to_bytes(4, "big") + b"\x0b" + bytes(8 * count)
    root = b"\xff" + object_id
    opening = b"JAVA PROFILE 1.0.2\0" + size.to_bytes(4, "big") + time.to_bytes(8, "big")
    opening += record(0x05, bytes.fromhex("00000001 00000000 00000000"))
    bodies = [array + root] if len(array + root) <= 4096 else [array, root]
    pieces = [opening, *(record(0x1C, body) for body in bodies), record(0x2C, b"")]
    lines = b"".join(data_lines(piece) for piece in pieces)
    return b"ok object 0x10000000\n%sok dump %d\n" % (lines, sum(map(len, pieces)))


def bytes_of(replies):
    """Returns the bytes of the data lines among replies."""
    return b"".join(bytes.fromhex(line[5:].decode()) for line in replies.splitlines() if line.startswith(b"data "))


POINT_DUMP = bytes_of(EXAMPLE_REPLIES)
EMPTY_DUMP = bytes_of(dump_of_longs(1))[:52] + record(0x2C, b"")


def run(program, words, given=b"", **how):
    """Returns status, standard output and standard error of the program, which is told its name. The status is None if it takes
    too long."""
    if "stdin" not in how:
        how["input"] = given
    how.setdefault("stdout", subprocess.PIPE)
    try:
        ran = subprocess.run(["heapdbg", *words], executable=program, stderr=subprocess.PIPE, timeout=SECONDS, **how)
    except subprocess.TimeoutExpired:
        return None, b"", b""
    return ran.returncode, ran.stdout or b"", ran.stderr


def run_by_terminal(program, words, given=b""):
    """Returns the same for a run whose standard error is a terminal."""
    terminal, error = os.openpty()
    ran = subprocess.run(
        ["heapdbg", *words], executable=program, input=given, stdout=subprocess.PIPE, stderr=error, timeout=SECONDS
    )
    os.close(error)
    shown = b""
    with os.fdopen(terminal, "rb", buffering=0) as stream:
        # (a terminal that nobody holds any more fails to be read at its end)
        while more := read_or_nothing(stream):
            shown += more
    return ran.returncode, ran.stdout, shown.replace(b"\r\n", b"\n")


def read_or_nothing(stream):
    """Returns what a terminal shows next, or nothing if its program has ended."""
    try:
        return os.read(stream.fileno(), 4096)
    except OSError:
        return b""


def limited(size):
    """Returns what a child does first: it gives up all address space above `size` bytes."""
    return lambda: resource.setrlimit(resource.RLIMIT_AS, (size, size))


def files(count):
    """Returns what a child does first: it gives up all but `count` open files."""
    return lambda: resource.setrlimit(resource.RLIMIT_NOFILE, (count, count))


def closed_input():
    """What a child does first: it closes its standard input."""
    os.close(0)
