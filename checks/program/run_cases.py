"""Cases of `run`."""
import contextlib
import fcntl
import os
import socket
import subprocess

from runs import EXAMPLE, EXAMPLE_REPLIES, MEBIBYTE, SECONDS, closed_input, dump_of_longs, limited, run


def sessions(program):
    """Yields sessions as (name, what happened, what must happen)."""
    yield "the example", run(program, ["run"], EXAMPLE), (0, EXAMPLE_REPLIES, b"")
    yield "no input", run(program, ["run"]), (0, b"", b"")
    many = 100_001
    yield "a million bytes", run(program, ["run"], b"clear 0 0\n" * many), (0, b"ok\n" * many, b"")
    dumped = run(program, ["run"], b"newprim 0 0 long 1024\ndump -\n")
    yield "a dump longer than the reply buffer", dumped, (0, dump_of_longs(1024), b"")
    for words, size in ((["--ids", "4"], 4), (["--keep", "4", "--ids=04"], 4), (["--ids", "8"], 8), (["--ids=8"], 8)):
        ran = run(program, ["run", *words], b"newprim 0 0 long 1\ndump -\n")
        yield " ".join(words), ran, (0, dump_of_longs(1, size), b"")
    latest = 2**64 - 1
    ran = run(program, ["run", f"--time={latest}"], b"newprim 0 0 long 1\ndump -\n")
    yield "the last time", ran, (0, dump_of_longs(1, 8, latest), b"")
    for words, kept in ((["--keep=0007"], 7), (["--keep", "1"], 1), ([], 1024)):
        ran = run(program, ["run", *words], b"clear 0 0\n" * 1025 + b"rewind 1025\n")
        yield "kept steps", ran, (0, b"ok\n" * 1025 + b"no 21 TooFar 1025 %d\n" % kept, b"")
    for words, regions in ((["--regions", "256"], 256), (["--regions=1"], 1), ([], 16)):
        ran = run(program, ["run", *words], b"newprim 0 0 long 1024\n" * regions + b"new 0 0 0\nnewprim 0 0 long 1\n")
        arrays = b"".join(b"ok object 0x%08x\n" % (0x10000000 + 8192 * number) for number in range(regions))
        yield "regions", ran, (0, arrays + b"no 2 NoClass\nno 13 HeapFull\n", b"")
    for words, mutators in ((["--mutators", "16"], 16), (["--mutators=1"], 1), ([], 2)):
        ran = run(program, ["run", *words], b"clear %d 0\nclear %d 0\n" % (mutators - 1, mutators))
        yield "mutators", ran, (0, b"ok\nno 7 BadRegister\n", b"")
    yield "nothing after end", run(program, ["run"], b"clear 0 0\nend\nclear"), (0, b"ok\n", b"")
    yield "a cut line", run(program, ["run"], b"clear 0 0\nclear 0"), (1, b"ok\nbad cut\n", b"heapdbg: cut\n")
    yield "a line of 4,096 bytes", run(program, ["run"], b"a" * 4096 + b"\n"), (0, b"bad command\n", b"")
    yield "a line of 4,097 bytes", run(program, ["run"], b"a" * 4097 + b"\n"), (1, b"bad long\n", b"heapdbg: long\n")


# Lines at their limits, and what each is answered in a session with no other.
LINES_AT_THE_LIMITS = (
    (b"clear 0 " + b"0" * 20, b"ok"),
    (b"clear 0 " + b"0" * 21, b"bad command"),
    (b"clear 0 18446744073709551615", b"no 7 BadRegister"),
    (b"clear 0 18446744073709551616", b"bad command"),
    (b"put 0 0 0 -1", b"bad command"),
    (b"clear 0 0\x80", b"bad command"),
    (b"class A - x:y:int", b"bad command"),
    (b"class a:b -", b"no 4 BadName"),
)


def lines_at_the_limits(program):
    """Yields lines at their limits, each alone, and a session's most reads as (name, what happened, what must happen)."""
    for line, reply in LINES_AT_THE_LIMITS:
        yield repr(line), run(program, ["run"], line + b"\n"), (0, reply + b"\n", b"")
    yield "999,999 reads and the end", read_by_one(program, 999_999, True), (0, b"", b"")
    yield "1,000,000 reads", read_by_one(program, 1_000_000, False), (1, b"bad reads\n", b"heapdbg: reads\n")


def read_by_one(program, count, ends, *words, task="run"):
    """Returns what happened to a session of `run`, or another task, each of whose `count` reads gives one LF, and then the end if it
    has one."""
    ours, theirs = socket.socketpair(socket.AF_UNIX, socket.SOCK_SEQPACKET)
    pipes = {"stdin": theirs, "stdout": subprocess.PIPE, "stderr": subprocess.PIPE}
    with ours, subprocess.Popen(["heapdbg", task, *words], executable=program, **pipes) as child:
        theirs.close()
        with contextlib.suppress(OSError):
            for _ in range(count):
                ours.send(b"\n")
        if ends:
            ours.close()
        out, error = child.communicate(timeout=SECONDS)
    return child.returncode, out, error


def faults(program):
    """Yields sessions whose streams or memory fail as (name, what happened, what must happen)."""
    read = (1, b"bad read\n", b"heapdbg: read\n")
    yield "a closed input", run(program, ["run"], stdin=None, preexec_fn=closed_input), read
    folder = os.open("/", os.O_RDONLY)
    yield "a folder as input", run(program, ["run"], stdin=folder), read
    os.close(folder)
    with open("/dev/full", "wb") as full:
        yield "a full output", run(program, ["run"], b"clear 0 0\n", stdout=full), (1, b"", b"heapdbg: write\n")
    enough = next(n for n in range(1, 64) if run(program, ["run"], preexec_fn=limited(n * MEBIBYTE))[0] == 0)
    large = ["run", "--regions", "256", "--keep", "65536"]
    ran = run(program, large, EXAMPLE, preexec_fn=limited(enough * MEBIBYTE))
    yield "little memory", ran, (1, b"", b"heapdbg: memory\n")


def would_block(program):
    """Yields a session whose output doesn't wait, and is full after a few thousand bytes, as (name, what happened, what must happen)."""
    come, output = os.pipe()
    room = fcntl.fcntl(output, fcntl.F_SETPIPE_SZ, os.sysconf("SC_PAGESIZE"))
    os.set_blocking(output, False)
    ran = run(program, ["run"], b"clear 0 0\n" * room, stdout=output)
    os.close(output)
    with open(come, "rb") as output:
        taken = output.read()
    # How much of it the pipe takes hangs on the parts in which the input comes.
    is_beginning = 0 < len(taken) <= room and (b"ok\n" * room).startswith(taken)
    yield "an output that doesn't wait", (*ran, is_beginning), (1, b"", b"heapdbg: write\n", True)
