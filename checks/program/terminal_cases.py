"""Cases of `explore` at a terminal: its prompt, its advice, rows in columns, and the script that runs it."""
import fcntl
import os
import pathlib
import pty
import re
import select
import shutil
import signal
import struct
import subprocess
import tempfile
import termios
import threading
import time

from ports import free_port
from runs import SECONDS, TOP, read_or_nothing, run, run_by_terminal


def shown_next(stream, seconds):
    """Returns what a terminal shows next, or nothing if its program has ended or that takes too long."""
    return read_or_nothing(stream) if select.select([stream], [], [], seconds)[0] else b""


def status_of(child, seconds):
    """Returns the status of a child that is to end by itself. Kills it if that takes too long."""
    until = time.monotonic() + seconds
    while (ended := os.waitpid(child, os.WNOHANG)) == (0, 0):
        if time.monotonic() > until:
            os.kill(child, signal.SIGKILL)
        time.sleep(0.001)
    return os.waitstatus_to_exitcode(ended[1])


def typed(program, words, given, seconds=SECONDS, **env):
    """Returns what a terminal shows of a program whose three streams it is, with its echo off, and the status. Types nothing more
    once a prompt takes too long. The terminal is dumb, unless `env` says otherwise."""
    child, terminal = pty.fork()
    if child == 0:
        # (what a shell starts in the background ignores interrupts)
        signal.signal(signal.SIGINT, signal.SIG_DFL)
        os.execve(program, ["heapdbg", *words], {**os.environ, "TERM": "dumb", **env})
    with os.fdopen(terminal, "r+b", buffering=0) as stream:
        subprocess.run(["stty", "-echo", "-onlcr"], stdin=stream, check=True, timeout=SECONDS)
        shown = bytearray()
        for line in given:
            while not shown.endswith(b"> ") and (more := shown_next(stream, seconds)):
                shown += more
            if not shown.endswith(b"> "):
                break
            stream.write(line)
            shown += b"|"
        else:
            while more := shown_next(stream, seconds):
                shown += more
        return bytes(shown), status_of(child, seconds)


# What a person types, and what is shown: `|` stands where a line was typed.
TYPED = [
    b"class Point - x:int description:int\n",
    b"new 0 0 0\n",
    b"show - 0x10000000\n",
    b"class Other - i:int description:int a:boolean\n",
    b"new 0 0 1\n",
    b"show - 0x10000020\n",
    b"show 0x10000020 0\n",
    b"newprim 0 1 long 100\n",
    b"histogram\n",
    b"rewind 1\n",
    b"collect\n",
    b"histgram -\n",
    b"histogram x\n",
    b"frobnicate\n",
    b"# a comment\n",
    b"rewind 1\n",
    b"\x04",
]
SHOWN = b"""heapdbg 0> |ok class 0
heapdbg 1> |ok object 0x10000000
heapdbg 2> |  SLOT  NAME         KIND  VALUE
     0  x            int       0
     1  description  int       0
ok object Point 2
heapdbg 2> |ok class 1
heapdbg 3> |ok object 0x10000020
heapdbg 4> |  SLOT  NAME         KIND     VALUE
     0  i            int          0
     1  description  int          0
     2  a            boolean      0
ok object Other 3
heapdbg 4> |  LEVEL  SLOT  NAME         KIND     VALUE  CLASS
      0     0  i            int          0
      0     1  description  int          0
      0     2  a            boolean      0
ok object Other 3
heapdbg 4> |ok object 0x10002000
heapdbg 5> |  OBJECTS  BYTES  CLASS
        1    800  long[]
        1      9  Other
        1      8  Point
ok 3 817
heapdbg 5> |ok place 4
heapdbg 4> |ok condemned 1 swept 1
heapdbg 8> |bad command
did you mean: histogram [AT]
heapdbg 8> |bad command
the form of this line is: histogram [AT]
AT is - for the current state, the number of an open pin, or @P for the state at place P
heapdbg 8> |bad command
help lists all lines
heapdbg 8> |heapdbg 8> |ok place 7
heapdbg 7> |
"""


# The forms of all lines, in the order of `help`, and the keywords of those that change nothing and make no file.
FORMS = [row[4:] for row in (TOP / "checks/sessions/questions/help.explored").read_bytes().split(b"ok\n")[0].splitlines()]
HARMLESS = b"histogram garbage growth kept diff registers classes objects values referrers path paths retained dominators dominator show born wrote watch writes when dropped life history cycles pins cells regions status help".split()
# Words that people type at other prompts, and words that are as near to two keywords.
WORDS = b"undo find back exitt list info hist goto step print HISTOGRAM rewing reiwnd classs pars endd edn hlep".split()


def distance(one, other):
    """Returns how many letters have to be put in, taken out or changed to make one word of another."""
    row = list(range(len(other) + 1))
    for at, letter in enumerate(one, 1):
        before, row[0] = row[0], at
        for place, second in enumerate(other, 1):
            before, row[place] = row[place], min(before + (letter != second), row[place] + 1, row[place - 1] + 1)
    return row[-1]


def advice(word):
    """Returns what is said after a line of this word, which is no keyword: the form of the line with the nearest keyword, of
    several the first, if one letter is wrong, or two and it changes nothing."""
    near = [(distance(word, form.split()[0]), at) for at, form in enumerate(FORMS)]
    near = [(far, at) for far, at in near if far <= (2 if FORMS[at].split()[0] in HARMLESS else 1)]
    return b"did you mean: " + FORMS[min(near)[1]] if near else b"help lists all lines"


def advised(program):
    """Yields what is said after words that are no keywords, each at the same prompt, as (name, what happened, what must happen)."""
    keys = [form.split()[0] for form in FORMS]
    words = [*WORDS, *(key + b"x" for key in keys), *(key + b"xx" for key in keys), *(key[1:] + b"q" for key in keys)]
    words = [word for word in words if word not in keys]
    shown = b"".join(b"heapdbg 0> |bad command\n" + advice(word) + b"\n" for word in words)
    happened = typed(program, ["explore"], [*(word + b"\n" for word in words), b"quit\n"])
    yield "advice on words", happened, (shown + b"heapdbg 0> |", 0)
    for word in (b"quit", b"exit", b"q", b"end", b"  quit "):
        yield f"{word} at a prompt", typed(program, ["explore"], [word + b"\n"]), (b"heapdbg 0> |", 0)
    shown, status = typed(program, ["explore"], [b"?\n", b"quit x\n", b"q\n"])
    rows, _, rest = shown.partition(b"ok\n")
    told = (b"heapdbg 0> | " + b"\n".join(FORMS), b"heapdbg 0> |bad command\nhelp lists all lines\nheapdbg 0> |")
    yield "? at a prompt", (b"\n".join(b" ".join(row.split()) for row in rows.splitlines()), rest, status), (*told, 0)
    piped = run(program, ["explore"], b"quit\nexit\nq\n?\n")
    yield "the same on a pipe", piped, (0, b"bad command\n" * 4, b"")


# What is said of states that aren't there.
AT_FORMS = b"AT is - for the current state, the number of an open pin, or @P for the state at place P\n"
STATES = [line + b"\n" for line in [b"clear 0 0"] * 3 + [b"histogram 1", b"growth - @0", b"classes x", b"retained x", b"objects x", b"history @0 1", b"born @0 0x10000000"]]
STATES += [b"open 0\n", b"close 1\n", b"rewind 1\n", b"show @0 0x10000000\n", b"q\n"]
STATES_SHOWN = b"""heapdbg 0> |ok
heapdbg 1> |ok
heapdbg 2> |ok
heapdbg 3> |no 22 NoPin
%(forms)sthe oldest retained place is @1
heapdbg 3> |no 24 NotRetained
%(forms)sthe oldest retained place is @1
heapdbg 3> |bad command
the form of this line is: classes [AT]
%(forms)sheapdbg 3> |bad command
the form of this line is: retained [AT] ID
%(forms)sheapdbg 3> |bad command
the form of this line is: objects [AT] [CLASS [SLOT VALUE]]
%(forms)sheapdbg 3> |no 24 NotRetained
@PLACE is @P for the state at place P, or - for the current state
the oldest retained place is @1
heapdbg 3> |no 24 NotRetained
@PLACE is @P for the state at place P, or - for the current state
the oldest retained place is @1
heapdbg 3> |no 24 NotRetained
AT is - for the current state, or P or @P for the state at place P
the oldest retained place is @1
heapdbg 3> |no 22 NoPin
pins lists the open pins
heapdbg 3> |ok place 2
heapdbg 2> |no 24 NotRetained
%(forms)sthe oldest retained place is @1
heapdbg 2> |""" % {b"forms": AT_FORMS}


def typed_beside(program, words, given):
    """Returns what a terminal shows of `explore --page`, with ADDRESS for that of the page, and the status."""
    shown, status = typed(program, ["explore", "--page", str(free_port()), *words], given)
    return re.sub(rb"page http://127\.0\.0\.1:\d+/#[0-9a-f]{32}\r?\n", b"ADDRESS\n", shown, count=1), status


# Lines whose answers have less than a terminal shows: classes beside ids in several states, what grew, and how many slots there are.
BESIDE = [
    line + b"\n"
    for line in b"""class Node - next:object value:int
class Leaf - value:int
new 0 0 Node
new 0 1 Leaf
store 0 0 next 1
put 0 0 value 7
show 0x10000000
show 0x10000020
show 0x10000000.next
show 0x10000000 0 1
show 0x10000000 0
clear 0 1
name cut
path 0x10000020
paths 0x10000020 1
referrers 0x10000020
values Node next
growth @2
diff @4
clear 0 0
collect
growth @cut
new 0 0 Leaf
show @cut 0x10000000
referrers @6 0x10000020
diff @cut
at @6
path 0x10000020
at -
show 0x10000000
load 0 2 0 3
put 0 0 1 5
values Node 2
writes 0 5
objects Node 4 0
when Leaf 1 0
wrote 0x10000000 1
wrote @cut 0x10000000 2
show 0x10000000.1
class Empty -
new 0 3 Empty
put 0 3 0 1
store 0 9 0 0
q""".split(b"\n")
]
BESIDE_SHOWN = b"""heapdbg 0> |ok class 0
heapdbg 1> |ok class 1
heapdbg 2> |ok object 0x10000000
heapdbg 3> |ok object 0x10000020
heapdbg 4> |ok
heapdbg 5> |ok
heapdbg 6> |  SLOT  NAME   KIND    VALUE       CLASS
     0  next   object  0x10000020  Leaf
     1  value  int     7
ok object Node 2
heapdbg 6> |  SLOT  NAME   KIND  VALUE
     0  value  int       0
ok object Leaf 1
heapdbg 6> |  SLOT  NAME   KIND  VALUE
     0  value  int       0
ok object Leaf 1
heapdbg 6> |  SLOT  NAME  KIND    VALUE       CLASS
     0  next  object  0x10000020  Leaf
ok object Node 2
heapdbg 6> |  LEVEL  SLOT  NAME   KIND    VALUE       CLASS
      0     0  next   object  0x10000020  Leaf
      0     1  value  int     7
ok object Node 2
heapdbg 6> |ok
heapdbg 7> |ok place 7
heapdbg 7> |  0           0  0x10000000  Node
  0x10000000  0  0x10000020  Leaf
ok 1
heapdbg 7> |  0           0  0x10000000  Node
  0x10000000  0  0x10000020  Leaf
ok 1
heapdbg 7> |  0x10000000  0  Node
ok 1
heapdbg 7> |  VALUE       OBJECTS  CLASS
  0x10000020        1  Leaf
ok 1
heapdbg 7> |  CLASS  OBJECTS  BYTES  OBJECTS  BYTES  +OBJECTS  +BYTES
  Node         0      0        1     12        +1     +12
  Leaf         0      0        1      4        +1      +4
ok 2
heapdbg 7> |  ID          CLASS  SLOT  OLD   NEW
  0x10000000  Node      0  null  0x10000020
  0x10000000  Node      1  0     7
ok 2
heapdbg 7> |ok
heapdbg 8> |ok condemned 2 swept 2
heapdbg 11> |  CLASS  OBJECTS  BYTES  OBJECTS  BYTES  +OBJECTS  +BYTES
  Node         1     12        0      0        -1     -12
  Leaf         1      4        0      0        -1      -4
ok 2
heapdbg 11> |ok object 0x10000000
heapdbg 12> |  SLOT  NAME   KIND    VALUE       CLASS
     0  next   object  0x10000020  Leaf
     1  value  int     7
ok object Node 2
heapdbg 12> |  0           1
  0x10000000  0  Node
ok 2
heapdbg 12> |  ID          CLASS  SLOT  OLD  NEW
  0x10000000  Node   gone
  0x10000000  Leaf   made
  0x10000020  Leaf   gone
ok 3
heapdbg 12> |ok place 6
heapdbg 12> |  0  1  0x10000020  Leaf
ok 0
heapdbg 12> |ok place 12
heapdbg 12> |  SLOT  NAME   KIND  VALUE
     0  value  int       0
ok object Leaf 1
heapdbg 12> |no 9 BadSlot
there is one slot: 0
heapdbg 12> |no 9 BadSlot
there is one slot: 0
heapdbg 12> |no 9 BadSlot
there are 2 slots: 0 to 1
heapdbg 12> |no 9 BadSlot
there are 2 slots: 0 to 1
heapdbg 12> |no 9 BadSlot
there are 2 slots: 0 to 1
heapdbg 12> |no 9 BadSlot
there is one slot: 0
heapdbg 12> |no 9 BadSlot
there is one slot: 0
heapdbg 12> |no 9 BadSlot
there are 2 slots: 0 to 1
heapdbg 12> |no 9 BadSlot
show lists the slots of an object
heapdbg 12> |ok class 2
heapdbg 13> |ok object 0x10000020
heapdbg 14> |no 9 BadSlot
there are no slots
heapdbg 14> |no 7 BadRegister
heapdbg 14> |"""


def beside_replies(program):
    """Yields what a terminal shows beside replies, without and with a page, as (name, what happened, what must happen). On a pipe there
    is nothing of it."""
    yield "more than replies", typed(program, ["explore"], BESIDE), (BESIDE_SHOWN, 0)
    yield "more than replies, with a page", typed_beside(program, [], BESIDE), (b"heapdbg: ADDRESS\n" + BESIDE_SHOWN, 0)
    piped = run(program, ["explore"], b"class A - next:object\nnew 0 0 0\nstore 0 0 0 0\nshow 0x10000000\nload 0 0 0 1\n")
    rows = b"ok class 0\nok object 0x10000000\nok\nrow 0 next object 0x10000000\nok object A 1\nno 9 BadSlot\n"
    yield "no more than replies on a pipe", piped, (0, rows, b"")


# Lines of a session with logs: `FOLDER` is a folder. What it shows, and what its logs have.
LOGGED = [
    line + b"\n"
    for line in b"""log FOLDER/a
class A - x:int
new 0 0 A
log FOLDER/b
show 0x10000000
put 0 0 9 9
log -
pins
log FOLDER/a
quit""".split(b"\n")
]
LOGGED_SHOWN = b"""heapdbg 0> |ok
heapdbg 0> |ok class 0
heapdbg 1> |ok object 0x10000000
heapdbg 2> |ok
heapdbg 2> |  SLOT  NAME  KIND  VALUE
     0  x     int       0
ok object A 1
heapdbg 2> |no 9 BadSlot
there is one slot: 0
heapdbg 2> |ok
heapdbg 2> |ok 0
heapdbg 2> |heapdbg: FOLDER/a: File exists
no 31 NoFile
heapdbg 2> |"""
LOGS = {
    "a": b"class A - x:int\n# ok class 0\nnew 0 0 A\n# ok object 0x10000000\nlog FOLDER/b\n",
    "b": b"show 0x10000000\n# row 0 x int 0\n# ok object A 1\nput 0 0 9 9\n# no 9 BadSlot\nlog -\n",
}


def logged(program):
    """Yields a session that logs as (name, what happened, what must happen), and one that runs its log again."""
    with tempfile.TemporaryDirectory() as folder:
        shown, status = typed(program, ["explore"], [line.replace(b"FOLDER", folder.encode()) for line in LOGGED])
        files = {path.name: path.read_bytes().replace(folder.encode(), b"FOLDER") for path in pathlib.Path(folder).iterdir()}
        happened = (shown.replace(folder.encode(), b"FOLDER"), status, files)
        yield "logs of a session", happened, (LOGGED_SHOWN, 0, LOGS)
        again = run(program, ["explore"], b"source FOLDER/a\nsource FOLDER/b\n".replace(b"FOLDER", folder.encode()))
        replies = b"ok class 0\nok object 0x10000000\nbad command\nok place 2\n"
        replies += b"row 0 x int 0\nok object A 1\nno 9 BadSlot\nbad command\nok place 2\n"
        yield "logs that are run", again, (0, replies, b"")


def by_script(program):
    """Yields what the script does that explores, with the program beside it, in the bin beside its folder, and on PATH, as (name,
    what happened, what must happen)."""
    for script_at, program_at, path in (("bin", "bin", ""), ("scripts", "bin", ""), ("scripts", "elsewhere", "elsewhere")):
        with tempfile.TemporaryDirectory() as folder:
            for place in {script_at, program_at}:
                os.mkdir(os.path.join(folder, place))
            os.symlink(program, os.path.join(folder, program_at, "heapdbg"))
            script = shutil.copy(TOP / "scripts/heapdbg-explore", os.path.join(folder, script_at))
            paths = {"PATH": os.path.join(folder, path) + ":/usr/bin:/bin"}
            lines = b"clear 0 0\n" * 2 + b"rewind 2\n"
            ran = subprocess.run([script, "--keep", "1"], input=lines, capture_output=True, env=paths)
            wanted = (0, b"ok\nok\nno 21 TooFar 2 1\n", b"")
            yield f"heapdbg-explore of {script_at}, {program_at}", (ran.returncode, ran.stdout, ran.stderr), wanted
            if script_at == program_at:
                interrupted = typed(script, [], [b"frobnic\x03pins\n", b"\x04"])
                yield "an interrupt of heapdbg-explore", interrupted, (b"heapdbg 0> |ok 0\nheapdbg 0> |\n", 0)
                yield from edited(script, folder)


# Stands for rlwrap: tells its words up to the program that it runs, and runs that.
EDITOR = """#!/bin/sh
told=
while [ "$1" != sh ]; do
    told="$told $1"
    shift
done
echo "rlwrap$told"
exec "$@"
"""
# What is typed to a line editor, and a part of what is shown then: Ctrl-C drops a line; Tab completes a keyword, and a class and an
# id that were shown; an arrow key brings the line before back.
EDITED = (
    (b"class server/Entry - next:object\r", b"ok class 0"),
    (b"frobnic\x03new 0 0 0\r", b"ok object 0x10000000"),
    (b"histog\t\r", b"server/Entry"),
    (b"values serv\tnext\r", b"null"),
    (b"show 0x1\t\r", b"ok object server/Entry 1"),
    (b"\x1b[A\r", b"ok object server/Entry 1"),
    (b"\x04", b""),
)


def edited(script, folder):
    """Yields what the script does where rlwrap is, as (name, what happened, what must happen): it runs that, with its keywords if they
    are there, at a terminal alone."""
    editors = os.path.join(folder, "editors")
    os.mkdir(editors)
    editor = os.path.join(editors, "rlwrap")
    with open(editor, "w", encoding="ascii") as file:
        file.write(EDITOR)
    os.chmod(editor, 0o755)
    env = {"PATH": editors + ":/usr/bin:/bin", "TERM": "xterm"}
    shown = b"heapdbg 0> |ok 0\nheapdbg 0> |\n"
    interrupted = [b"frobnic\x03pins\n", b"\x04"]
    yield "heapdbg-explore with rlwrap", typed(script, [], interrupted, **env), (b"rlwrap -C heapdbg -r -b  \n" + shown, 0)
    words = os.path.join(os.path.dirname(script), "../share/heapdbg/explore.words")
    os.makedirs(os.path.dirname(words))
    shutil.copy(TOP / "completions/explore.words", words)
    told = f"rlwrap -C heapdbg -r -b   -f {words}\n".encode()
    yield "heapdbg-explore with rlwrap and keywords", typed(script, [], interrupted, **env), (told + shown, 0)
    yield "heapdbg-explore at a dumb terminal", typed(script, [], interrupted, **{**env, "TERM": "dumb"}), (shown, 0)
    piped = subprocess.run([script], input=b"pins\n", capture_output=True, env=env)
    yield "heapdbg-explore on a pipe, with rlwrap", (piped.returncode, piped.stdout, piped.stderr), (0, b"ok 0\n", b"")
    if shutil.which("rlwrap"):
        wanted = [True for _ in EDITED]
        yield "lines edited by rlwrap", by_editor(script, folder), (wanted, 0, True)


def by_editor(script, folder):
    """Returns whether each line that is typed to rlwrap shows what it must, the status, and whether the lines are kept."""
    child, terminal = pty.fork()
    if child == 0:
        # (rlwrap asks how wide its terminal is)
        time.sleep(0.1)
        signal.signal(signal.SIGINT, signal.SIG_DFL)
        os.execve(script, ["heapdbg-explore"], {**os.environ, "TERM": "xterm", "HOME": folder})
    fcntl.ioctl(terminal, termios.TIOCSWINSZ, struct.pack("HHHH", 24, 200, 0, 0))
    found = []
    with os.fdopen(terminal, "r+b", buffering=0) as stream:
        shown_until(stream, b"> ")
        for line, part in EDITED:
            stream.write(line)
            found.append(part in shown_until(stream, part + b".*> " if part else b"(?!)"))
    status = status_of(child, SECONDS)
    with open(os.path.join(folder, ".heapdbg_history"), "rb") as file:
        return found, status, b"histogram" in file.read()


def shown_until(stream, wanted, seconds=SECONDS):
    """Returns what a terminal shows until that fits a pattern, or until nothing comes for this long."""
    shown = b""
    while not re.search(wanted, shown, re.DOTALL) and (more := shown_next(stream, seconds)):
        shown += more
    return shown


# What is shown of a line that is being answered for seconds, and what clears it.
TICKS = rb"(?:\rheapdbg: source: [1-9][0-9]* s)+"
CLEARED = b"\r" + b" " * 38 + b"\r"
# How long to wait for what must not be shown after a second.
SILENT = 1.6


def held(program, words, output, seconds):
    """Returns what a terminal shows of `explore` with a line that reads a named pipe, which is fed once the seconds of the line are
    shown, or after this many, and the status. Its standard output is a file, if there is one."""
    with tempfile.TemporaryDirectory() as folder:
        path = os.path.join(folder, "pipe")
        os.mkfifo(path)
        child, terminal = pty.fork()
        if child == 0:
            if output is not None:
                os.dup2(output.fileno(), 1)
            os.execve(program, ["heapdbg", "explore", *words], os.environ)
        with os.fdopen(terminal, "r+b", buffering=0) as stream, open(path, "r+b", buffering=0) as pipe:
            subprocess.run(["stty", "-echo", "-onlcr"], stdin=stream, check=True, timeout=SECONDS)
            shown = shown_until(stream, b"> ")
            stream.write(b"source %s\n" % path.encode())
            shown += shown_until(stream, b" s$", seconds)
            pipe.write(b"clear 0 0\n")
            pipe.close()
            shown += shown_until(stream, b"> ")
            stream.write(b"q\n")
            shown += shown_until(stream, b"(?!)")
        return shown, status_of(child, SECONDS)


def ticked(program, words=(), output=None):
    """Returns what a terminal shows of a line that takes over a second, with TICKS for its seconds, whether these rise, and the status."""
    shown, status = held(program, words, output, SECONDS)
    seconds = [int(second) for second in re.findall(rb"([0-9]+) s", shown)]
    return re.sub(TICKS, b"TICKS", shown), seconds == sorted(set(seconds)), status


def long_answers(program):
    """Yields what is shown while a line is being answered for over a second, as (name, what happened, what must happen): its seconds, at
    a terminal that isn't quiet, and nothing of it on standard output."""
    replies = b"ok\nok place 1\n"
    told = b"heapdbg 0> TICKS" + CLEARED
    yield "a long answer", ticked(program), (told + replies + b"heapdbg 1> ", True, 0)
    with tempfile.TemporaryFile() as output:
        shown = ticked(program, output=output)
        output.seek(0)
        yield "a long answer to a file", (*shown, output.read()), (told + b"heapdbg 1> ", True, 0, replies)
    silent = (b"heapdbg 0> " + replies + b"heapdbg 1> ", 0)
    yield "a long answer at a quiet terminal", held(program, ["--quiet"], None, SILENT), silent
    yield "a long answer on a pipe", late_line(program), (0, replies, b"")


def late_line(program):
    """Returns status, standard output and standard error of `explore` for a line on a pipe that takes over a second, beside a terminal
    that is its standard error."""
    with tempfile.TemporaryDirectory() as folder:
        path = os.path.join(folder, "pipe")
        os.mkfifo(path)
        with open(path, "r+b", buffering=0) as pipe:
            feed = threading.Timer(SILENT, lambda: (pipe.write(b"clear 0 0\n"), pipe.close()))
            feed.start()
            ran = run_by_terminal(program, ["explore"], b"source %s\n" % path.encode())
            feed.join()
        return ran


def at_a_terminal(program):
    """Yields what `explore` and `run` show at a terminal as (name, what happened, what must happen)."""
    yield "explore at a terminal", typed(program, ["explore"], TYPED), (SHOWN, 0)
    yield from advised(program)
    yield from beside_replies(program)
    yield from logged(program)
    yield "states that aren't there", typed(program, ["explore", "--keep", "2"], STATES), (STATES_SHOWN, 0)
    yield from by_script(program)
    yield from long_answers(program)
    yield "an interrupt", typed(program, ["explore"], [b"frobnic\x03"])[1:], (-signal.SIGINT,)
    yield "explore with a page", typed_beside(program, [], TYPED), (b"heapdbg: ADDRESS\n" + SHOWN, 0)
    yield "states that aren't there, with a page", typed_beside(program, ["--keep", "2"], STATES), (b"heapdbg: ADDRESS\n" + STATES_SHOWN, 0)
