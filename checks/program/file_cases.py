"""Cases of lines that write and read files: `write`, `draw`, `source` and `log`, what the files have, and where these lines are no
commands."""
import pathlib
import resource
import signal
import tempfile

from clients import ended, served
from ports import free_port
from runs import POINT, POINT_DUMP, POINT_MADE, bytes_of, run, run_by_terminal

# Lines that change the state in several ways, with a pin on the state after the third step. A cycle is left half done.
STEPS = b"""class Node - next:object value:int
new 0 0 0
newprim 0 1 byte 64
open -
put 0 0 1 7
new 0 2 0
store 0 0 0 2
clear 0 1
snap
mark
"""
# What files have that are there before.
KEPT = b"kept\n"
REFUSED = b"no 31 NoFile\n"
SETTINGS = ((), ("--time", "1234567890123", "--ids", "4"), ("--wide", "1", "--regions", "300"))


def files_in(folder):
    """Returns what the files of a folder have, by their names."""
    return {path.name: path.read_bytes() for path in pathlib.Path(folder).iterdir()}


def explored(program, given, words=(), there=(), task="explore", by=run, **how):
    """Runs a session in a folder of its own, which has files of these names before, and with these texts, if they are a dictionary.
    Returns status, standard output and standard error, and what files the folder has then."""
    with tempfile.TemporaryDirectory() as folder:
        for name in there:
            pathlib.Path(folder, name).write_bytes(there[name] if isinstance(there, dict) else KEPT)
        given = given.replace(b"FOLDER", folder.encode())
        ran = by(program, [task, *words], given, **({"cwd": folder} if by is run else {}), **how)
        return ran[0], ran[1], ran[2].replace(folder.encode(), b"FOLDER"), files_in(folder)


def last_dump(program, given, words):
    """Returns the dump that the last line of a session of `run` prints."""
    lines = run(program, ["run", *words], given)[1].splitlines(keepends=True)
    others = [-1, *(at for at, line in enumerate(lines) if not line.startswith(b"data "))]
    return bytes_of(b"".join(lines[others[-2] + 1 :]))


def picture(program, given, words):
    """Returns what `heapdbg draw` draws of a session."""
    with tempfile.TemporaryDirectory() as folder:
        path = pathlib.Path(folder, "heap.svg")
        run(program, ["draw", "--out", str(path), *words], given)
        return path.read_bytes()


def states_written(program):
    """Yields a session that writes files of several states as (name, what happened, what must happen): each has what `dump` prints of
    the state, or what `heapdbg draw` draws."""
    for words in SETTINGS:
        now, drawn = last_dump(program, STEPS + b"dump -\n", words), picture(program, STEPS, words)
        pinned = last_dump(program, STEPS + b"dump 1\n", words)
        second = last_dump(program, STEPS + b"open 2\ndump 2\n", words)
        before = last_dump(program, STEPS + b"rewind 2\ndump -\n", words)
        drawn_before = picture(program, STEPS + b"rewind 2\n", words)
        drawn_second = picture(program, STEPS + b"rewind @2\n", words)
        drawn_third = picture(program, STEPS + b"rewind @3\n", words)
        lines = (
            (b"write now", now),
            (b"  write   -  dash ", now),
            (b"write 1 pinned", pinned),
            (b"write @2 place", second),
            (b"draw drawn", drawn),
            (b"draw - drawn-dash", drawn),
            (b"draw @2 drawn-place", drawn_second),
            (b"draw 1 drawn-pin", drawn_third.replace(b">place 3:", b">pin 1:")),
            (b"at @2", None),
            (b"write at.hprof", second),
            (b"write - dash-at", now),
            (b"draw drawn-at", drawn_second),
            (b"draw - drawn-dash-at", drawn),
            (b"at -", None),
            (b"rewind 2", None),
            (b"write before\r", before),
            (b"draw drawn-before", drawn_before),
            (b"name here", None),
            (b"write @here named", before),
            (b"draw @here drawn-named", drawn_before),
        )
        given = STEPS + b"".join(line + b"\n" for line, _ in lines)
        files = {line.split()[-1].decode(): text for line, text in lines if text is not None}
        status, out, error, made = explored(program, given, words)
        sizes = [b"ok %d" % len(text) for _, text in lines if text is not None]
        answers = [line for line in out.splitlines()[len(STEPS.splitlines()) :] if not line.startswith(b"ok place")]
        yield f"files of states {' '.join(words)}", (status, answers, error, made), (0, sizes, b"", files)
    again = explored(program, STEPS + b"write a\ndump -\nwrite b\n")
    pieces = last_dump(program, STEPS + b"dump -\n", ())
    yield "a state that files are written of", (again[0], bytes_of(again[1]), again[3]), (0, pieces, {"a": pieces, "b": pieces})


def long_dumps(program):
    """Yields files of dumps of many pieces as (name, what happened, what must happen)."""
    given = b"newprim 0 0 long 1024\n" * 255 + b"class Point - x:int y:int\n" + b"new 0 0 1\n" * 200
    with tempfile.TemporaryDirectory() as folder:
        path = pathlib.Path(folder, "saved")
        run(program, ["save", "--out", str(path)], given)
        saved = path.read_bytes()
    status, out, error, made = explored(program, given + b"write long\n")
    told = (status, out.splitlines()[-1:], error, made == {"long": saved})
    yield "a long dump", told, (0, [b"ok %d" % len(saved)], b"", True)


def no_files(program):
    """Yields lines that can make no file as (name, what happened, what must happen): a file that is there is left as it is."""
    lines = b"write a\ndraw a\nwrite no/such/folder\ndraw FOLDER\nwrite b\nwrite b\ndraw b\n"
    wanted = POINT_MADE + REFUSED * 4 + b"ok 301\n" + REFUSED * 2
    happened = explored(program, POINT + lines, there=["a"])
    yield "files that are there", happened, (0, wanted, b"", {"a": KEPT, "b": POINT_DUMP})
    lines = b"write 7 a\nwrite @9 a\ndraw 7 no/such\ndraw @9 no/such\nclose 1\nwrite @2 b\n"
    wanted = POINT_MADE + b"no 22 NoPin\nno 24 NotRetained\n" * 2 + b"no 22 NoPin\nok 301\n"
    happened = explored(program, POINT + lines, there=["a"])
    yield "states that aren't there", (*happened[:3], sorted(happened[3])), (0, wanted, b"", ["a", "b"])
    lost = b"clear 0 0\nopen -\nrewind 1\nwrite 1 a\ndraw 1 no/such\n"
    happened = explored(program, lost)
    yield "a lost pin", happened, (0, b"ok\nok pin 1 at 1\nok place 0\n" + b"no 23 Lost Rewound\n" * 2, b"", {})
    bad = (b"write", b"draw", b"write - a b", b"draw - a b", b"draw x a", b"write x a", b"write @ a", b"write @x a", b"write -1 a", b"Write a", b"write\ta", b"writes a")
    happened = explored(program, b"".join(line + b"\n" for line in bad))
    yield "lines that ask for no file", happened, (0, b"bad command\n" * len(bad), b"", {})
    happened = explored(program, "write ä\n".encode() + b"write \xff\nwrite a\0b\n")
    empty = last_dump(program, b"dump -\n", ())
    yield "a path that is no ASCII", happened, (0, b"ok %d\n" % len(empty) + REFUSED * 2, b"", {"ä": empty})


def reasons_told(program):
    """Yields why no file is made, beside a terminal, as (name, what happened, what must happen)."""
    lines = b"write FOLDER/a\ndraw FOLDER/no/such\nwrite FOLDER/a\nwrite \xff\n"
    empty = last_dump(program, b"dump -\n", ())
    told = b"heapdbg: FOLDER/no/such: No such file or directory\nheapdbg: FOLDER/a: File exists\nheapdbg: a path: not UTF-8\n"
    wanted = (0, b"ok %d\n" % len(empty) + REFUSED * 3, told, {"a": empty})
    yield "reasons of no file", explored(program, lines, by=run_by_terminal), wanted


def cut_files(program):
    """Yields files that may have too few bytes as (name, what happened, what must happen): none stays."""

    def limited(size):
        def limits():
            signal.signal(signal.SIGXFSZ, signal.SIG_IGN)
            resource.setrlimit(resource.RLIMIT_FSIZE, (size, size))

        return limits

    for size in (0, 1, 299, 300):
        happened = explored(program, POINT + b"write a\nwrite b\ndump -\n", preexec_fn=limited(size))
        wanted = POINT_MADE + REFUSED * 2
        yield f"a file of at most {size} bytes", (happened[0], happened[1][: len(wanted)], *happened[2:]), (0, wanted, b"", {})
    happened = explored(program, POINT + b"write a\ndraw b\n", preexec_fn=limited(301))
    yield "a file of at most 301 bytes", happened, (0, POINT_MADE + b"ok 301\n" + REFUSED, b"", {"a": POINT_DUMP})


def elsewhere(program):
    """Yields sessions in which these lines are no commands as (name, what happened, what must happen)."""
    lines = b"write a\nwrite - a\ndraw a\nhelp write\nhelp draw\nsource a\nlog a\nlog -\nhelp source\nhelp log\n"
    bad = b"bad command\n" * 10
    for task, words in (("run", ()), ("run", ("--questions", "1")), ("explore", ("--page", str(free_port())))):
        status, out, _, files = explored(program, lines, words, task=task)
        yield f"{task} {' '.join(words[:1])} writes no file", (status, out, files), (0, bad, {})
    for task in ("draw", "save"):
        status, out, _, files = explored(program, lines, ("--out", "x", "--questions", "1")[: 4 if task == "save" else 2], task=task)
        yield f"{task} writes no other file", (status, out[: len(bad)], list(files)), (0, bad, ["x"])
    with tempfile.TemporaryDirectory() as folder:
        path = pathlib.Path(folder, "first")
        path.write_bytes(b"write a\ndraw b\n")
        happened = explored(program, b"pins\n", ("--from", str(path)))
        told = "".join(f"heapdbg: {path}:{at + 1}: bad command: {line}\n" for at, line in enumerate(("write a", "draw b")))
        yield "lines of a file write no file", happened, (0, b"ok 0\n", told.encode(), {})
    happened = served(program, ended(lines + b"end\n"), ["--questions", "1"])
    yield "a served session writes no file", happened, (0, b"session 1 quit\n", b"", bad)


# A file of lines, in which none writes or reads a file, and what it is answered.
LINES = b"class A - next:object\n# a comment\nnew 0 0 A\nhistogram\nload 0 0 0 7\nwrite a\nsource b\nlog c\nname made\nopen -\nhelp source\n"
REPLIES = b"ok class 0\nok object 0x10000000\nrow 1 8 A\nok 1 8\nno 9 BadSlot\n" + b"bad command\n" * 3
REPLIES += b"ok place 2\nok pin 1 at 2\nbad command\n"
# Files that end otherwise, the replies to their lines, and the place to which they lead.
ENDINGS = (
    (b"", b"", 0),
    (b"clear 0 0\nend\nclear 0 0\n", b"ok\n", 1),
    (b"clear 0 0\nclear 0 0", b"ok\nbad cut\n", 1),
    (b"clear 0 0\n" + b"x" * 4097 + b"\nclear 0 0\n", b"ok\nbad long\n", 1),
)


def sourced_files(program):
    """Yields sessions that run the lines of files as (name, what happened, what must happen)."""
    there = {"lines": LINES}
    given = b"source lines\nshow @made 0x10000000\npins\nrewind 2\nsource none\nsource\nsource a b\nsource FOLDER\n"
    wanted = REPLIES + b"ok place 2\nrow 0 next object null\nok object A 1\nrow 1 2 held 0\nok 1\nok place 0\n"
    wanted += REFUSED + b"bad command\n" * 2 + REFUSED
    yield "lines of a file", explored(program, given, there=there), (0, wanted, b"", there)
    for text, replies, place in ENDINGS:
        happened = explored(program, b"source lines\npins\n", there={"lines": text})
        wanted = (0, replies + b"ok place %d\nok 0\n" % place, b"", {"lines": text})
        yield f"a file of {len(text)} bytes", happened, wanted
    many = b"help\n" * 1000
    happened = explored(program, b"source lines\n", there={"lines": many})
    answers = run(program, ["run", "--questions", "1"], many)[1]
    yield "many replies to lines of a file", happened[:2], (0, answers + b"ok place 0\n")
    happened = explored(program, b"source FOLDER/none\nsource FOLDER\nsource \xff\n", by=run_by_terminal)
    told = b"heapdbg: FOLDER/none: No such file or directory\nheapdbg: FOLDER: Is a directory\nheapdbg: a path: not UTF-8\n"
    yield "reasons of no lines", happened, (0, REFUSED * 3, told, {})


def logs(program):
    """Yields sessions that log as (name, what happened, what must happen)."""
    happened = explored(program, b"log a\nlog no/such\nlog FOLDER\nlog\nlog a b\nlog -\nlog -\n", there=["a"])
    yield "no log", happened, (0, REFUSED * 3 + b"bad command\n" * 2 + b"ok\n" * 2, b"", {"a": KEPT})


def written_files(program):
    """Yields sessions whose lines write and read files as (name, what happened, what must happen)."""
    for cases in (states_written, long_dumps, no_files, reasons_told, cut_files, elsewhere, sourced_files, logs):
        yield from cases(program)
