"""Cases of `explore` and of `run` with questions: checks/sessions/questions/NAME.session with what it must be answered in
NAME.expected, and by `explore`, if that differs, in NAME.explored."""
import os
import pathlib
import tempfile
import threading
import time

from runs import EXAMPLE, EXAMPLE_REPLIES, TOP, run, run_by_terminal

# A file of lines to run first: of its lines the fourth, the fifth and the seventh are refused.
FIRST_LINES = b"""class Point - x:int y:int
new 0 0 0
put 0 0 0 7

put 0 0 2 7
frobnicate
new 0 0 1
open -
"""
# What is said of them, with PATH for the file's name.
SAID = b"""heapdbg: PATH:5: no 9 BadSlot: put 0 0 2 7
heapdbg: PATH:6: bad command: frobnicate
heapdbg: PATH:7: no 2 NoClass: new 0 0 1
"""
# Lines with questions, of which four are refused, and what is said of those.
QUESTION_LINES = b"""# a class of one field

class Point - x:int
new 0 0 0
clear 0 0
show - 0x10000000
show - 0x10000020
path - 0x10000000
rewind 4
histogram 1
registers -
"""
QUESTIONS_SAID = b"""heapdbg: PATH:7: no 28 NoObject: show - 0x10000020
heapdbg: PATH:8: no 27 Unreachable: path - 0x10000000
heapdbg: PATH:9: no 21 TooFar 4 3: rewind 4
heapdbg: PATH:10: no 22 NoPin: histogram 1
"""
ASKED = b"show - 0x10000000\npins\n"
ANSWERED = b"row 0 x int 7\nrow 1 y int 0\nok object Point 2\nrow 1 3 held 0\nok 1\n"


def run_after(program, lines, given, *words):
    """Returns what `explore --from` does with a file of lines and with `given`: status, standard output and standard error, with
    PATH for the file's name."""
    with tempfile.TemporaryDirectory() as folder:
        path = pathlib.Path(folder, "first.session")
        path.write_bytes(lines)
        status, out, error = run(program, ["explore", "--from", str(path), *words], given)
        return status, out, error.replace(str(path).encode(), b"PATH")


def slowly(path):
    """Writes lines to a named pipe: enough for the clock to be looked at, as many again when a count is due, and a few that are
    refused or cut."""
    with open(path, "wb", buffering=0) as pipe:
        pipe.write(b"snap\n" + b"\n" * 1023)
        time.sleep(1.3)
        pipe.write(b"\n" * 1024 + b"snap\n\nmar")


def counted(program, by, *words):
    """Returns what `explore` with these words shows of a file that comes slowly, with PATH for its name, by one of two ways to run it."""
    with tempfile.TemporaryDirectory() as folder:
        path = os.path.join(folder, "pipe")
        os.mkfifo(path)
        writer = threading.Thread(target=slowly, args=(path,))
        writer.start()
        ran = by(program, ["explore", "--from", path, *words], b"mark\n")
        writer.join()
        return (*ran[:2], ran[2].replace(path.encode(), b"PATH"))


def counts_of_lines(program):
    """Yields what a file that takes longer than a second shows on a terminal, and elsewhere, as (name, what happened, what must
    happen)."""
    refused = b"heapdbg: PATH:2049: no 14 AlreadyMarking: snap\n"
    cut = b"heapdbg: PATH:2051: the last line has no end\n"
    said = b"no 16 NothingToMark\n"
    yield "a slow file", counted(program, run), (0, said, refused + cut)
    yield "a slow file at a terminal", counted(program, run_by_terminal), (0, said, b"\r2048 lines\n" + refused + cut)
    yield "a slow file at a quiet terminal", counted(program, run_by_terminal, "--quiet"), (0, said, refused + cut)


def files_first(program):
    """Yields sessions after a file of lines as (name, what happened, what must happen)."""
    yield "lines first", run_after(program, FIRST_LINES, ASKED), (0, ANSWERED, SAID)
    yield "questions in a file", run_after(program, QUESTION_LINES, b"pins\n"), (0, b"ok 0\n", QUESTIONS_SAID)
    long = run_after(program, b"newprim 0 0 long 1024\ndump -\ndump 9\n", b"pins\n")
    yield "a long dump in a file", long, (0, b"ok 0\n", b"heapdbg: PATH:3: no 22 NoPin: dump 9\n")
    yield "an end in a file", run_after(program, FIRST_LINES + b"end\nsnap\n", ASKED), (0, ANSWERED, SAID)
    said = SAID + b"heapdbg: PATH:9: the last line has no end\n"
    yield "a cut file", run_after(program, FIRST_LINES + b"snap", ASKED), (0, ANSWERED, said)
    yield "an empty file", run_after(program, b"", b"snap\n"), (0, b"ok pushed 0\n", b"")
    said = b"heapdbg: PATH:2: the line is too long\n"
    yield "a long line in a file", run_after(program, b"snap\n" + b"x" * 5000, b"mark\n"), (0, b"no 16 NothingToMark\n", said)
    yield "a dump in a file", run_after(program, EXAMPLE, b"pins\n"), (0, b"ok 0\n", b"")
    words = ["explore", "--from", str(TOP / "no/such/file")]
    yield "no file", run(program, words, ASKED), (1, b"", b"heapdbg: from\n")
    words = ["explore", "--from", str(TOP)]
    yield "a folder", run(program, words, b"snap\n"), (1, b"", b"heapdbg: from\n")


def questions(program):
    """Yields sessions with questions as (name, what happened, what must happen)."""
    yield "explore on the example", run(program, ["explore"], EXAMPLE), (0, EXAMPLE_REPLIES, b"")
    for path in sorted(TOP.glob("checks/sessions/questions/*.session")):
        answers, explored = path.with_suffix(".expected"), path.with_suffix(".explored")
        wanted = (explored if explored.exists() else answers).read_bytes()
        with tempfile.TemporaryDirectory() as folder:
            yield path.stem, run(program, ["explore"], path.read_bytes(), cwd=folder), (0, wanted, b"")
        wanted = (0, answers.read_bytes(), b"")
        yield f"{path.stem}, run", run(program, ["run", "--questions", "1"], path.read_bytes()), wanted
    for words in ([], ["--questions", "0"]):
        asked = run(program, ["run", *words], b"histogram -\ncollect\nhelp\n# x\n")
        yield "no questions in run", asked, (0, b"bad command\n" * 4, b"")
    yield from files_first(program)
    yield from counts_of_lines(program)
