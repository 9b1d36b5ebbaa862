"""Cases of `serve` and `ask`."""
import os
import socket
import subprocess
import threading

from clients import answered, asked, connected, ended, ended_by, repeated, reply_of, rest_of, served
from ports import free_port
from runs import EXAMPLE, EXAMPLE_REPLIES, MEBIBYTE, POINT, POINT_MADE, SECONDS, TOP, dump_of_longs, files, limited, run
from servers import Server


def example_by_two(port):
    """The first client makes the point, the second writes and dumps it, and ends first."""
    lines = EXAMPLE.splitlines(keepends=True)
    with connected(port) as first, connected(port) as second:
        made = answered(first, b"".join(lines[:2]), len(b"ok class 0\nok object 0x10000000\n"))
        dumped = rest_of(second, b"".join(lines[2:]) + b"end\n")
        return made + dumped, rest_of(first, b"end\n")


def closing_in_a_line(port):
    """The first client closes in the middle of a line, and the second dumps what it left."""
    lines = EXAMPLE.splitlines(keepends=True)
    with connected(port) as first:
        made = answered(first, b"".join(lines[:3]), len(b"ok class 0\nok object 0x10000000\nok\n"))
        first.sendall(b"put 0 0 0")
    with connected(port) as second:
        return (made + rest_of(second, lines[3] + b"end\n"),)


ARRAY = b"newprim 0 0 long 1024\n"
WRITES = 1000


def never_reading(port):
    """The first client asks for more dumps than any buffers hold and reads none. Meanwhile the second writes."""
    with connected(port, 4096) as first, connected(port) as second:
        first.sendall(ARRAY + b"dump -\n" * 2000)
        while answered(second, b"put 0 0 0 1\n", 2) != b"ok":
            assert second.recv(100)
        got = answered(second, b"", 1)
        for number in range(WRITES):
            got += answered(second, b"put 0 0 1 %d\n" % number, 3)
        return got, rest_of(second, b"end\n")


DUMPS = 30
PUTS = 300


def dumping_beside_writes(port):
    """The first client dumps the place after the point's lines again and again, while the second writes to the point."""
    with connected(port) as first, connected(port) as second:
        dumps, writes = [answered(first, POINT, len(POINT_MADE))], []
        writer = threading.Thread(target=lambda: writes.extend(answered(second, b"put 0 0 0 8\n", 3) for _ in range(PUTS)))
        writer.start()
        for pin in range(1, DUMPS + 1):
            lines = b"open 3\ndump %d\nclose %d\n" % (pin, pin)
            dumps.append(answered(first, lines, len(dump_answers(pin))))
        writer.join()
        return b"".join(dumps), b"".join(writes), rest_of(second, b"end\n") + rest_of(first, b"end\n")


def dump_answers(pin):
    """Returns what a dump of the point by a pin of this number is answered, with the lines that open the pin and close it."""
    return b"ok pin %d at 3\n" % pin + EXAMPLE_REPLIES[len(POINT_MADE) :] + b"ok\n"


def served_sessions(program):
    """Yields sessions that are served as (name, what happened, what must happen)."""
    quits = b"session 1 quit\nsession 2 quit\n"
    two = ["--sessions", "2"]
    yield "the example by two", served(program, example_by_two, two), (0, quits, b"", EXAMPLE_REPLIES, b"")
    cut = (0, b"session 1 cut\nsession 2 quit\n", b"", EXAMPLE_REPLIES)
    yield "a client that closes in a line", served(program, closing_in_a_line, two), cut
    slow = (0, b"session 1 write\nsession 2 quit\n", b"", b"\n" + b"ok\n" * WRITES, b"")
    yield "a client that never reads", served(program, never_reading, two), slow
    beside = served(program, dumping_beside_writes, two)
    dumps = POINT_MADE + b"".join(map(dump_answers, range(1, DUMPS + 1)))
    yield "dumps beside writes", beside, (0, quits, b"", dumps, b"ok\n" * PUTS, b"")
    long = served(program, ended(b"a" * 4097))
    yield "a line too long", long, (0, b"session 1 long\n", b"", b"bad long\n")
    ids = served(program, ended(b"newprim 0 0 long 1\ndump -\nend\n"), ["--ids", "4", "--time=7"])
    yield "ids and time", ids, (0, b"session 1 quit\n", b"", dump_of_longs(1, 4, 7))
    kept = served(program, ended(b"clear 1 0\n" * 3 + b"rewind 3\nend\n"), ["--keep", "2", "--mutators", "1"])
    yield "kept steps", kept, (0, b"session 1 quit\n", b"", b"no 7 BadRegister\n" * 3 + b"no 21 TooFar 3 0\n")
    three = served(program, lambda port: [ended(b"close 1\nend\n")(port)[0] for _ in range(3)], ["--sessions=3"])
    yield "three in turn", three, (0, quits + b"session 3 quit\n", b"", *[b"no 22 NoPin\n"] * 3)


def ending_with_pins(port):
    """Three clients, one after another, open a pin on the point that the first makes, and write to it: one ends by `end`, one at
    the end of input, one in a line. A fourth dumps and closes the pins of all."""
    got = [
        ended_by(given)(port)[0]
        for given in (POINT + b"open -\nput 0 0 0 8\nend\n", b"open 3\nput 0 0 0 9\n", b"open 3\nclear 0 0\ncl")
    ]
    lines = b"".join(b"dump %d\nclose %d\n" % (pin, pin) for pin in (1, 2, 3))
    with connected(port) as last:
        return (*got, rest_of(last, lines + b"close 1\nend\n"))


def pins_of_ended_sessions(program):
    """Yields sessions that end with a pin open as (name, what happened, what must happen)."""
    dumped = EXAMPLE_REPLIES[len(POINT_MADE) :]
    words = b"session 1 quit\nsession 2 eof\nsession 3 cut\nsession 4 quit\n"
    opened = POINT_MADE + b"ok pin 1 at 3\nok\n", b"ok pin 2 at 3\nok\n", b"ok pin 3 at 3\nok\nbad cut\n"
    happened = served(program, ending_with_pins, ["--sessions", "4"])
    yield "pins of ended sessions", happened, (0, words, b"", *opened, (dumped + b"ok\n") * 3 + b"no 22 NoPin\n")


# Worked examples of a session over a shared heap: words of `serve`, lines, and what they are answered. The dump is that of one
# point whose `x` is 7.
WORKED = {
    "rewind_gives_back_cells": (
        [],
        b"class Point - x:int y:int\nnew 0 0 0\nnew 0 1 0\nrewind 2\nnew 0 0 0\n",
        b"ok class 0\nok object 0x10000000\nok object 0x10000020\nok place 1\nok object 0x10000000\n",
    ),
    "dump_of_a_past_place": (
        [],
        EXAMPLE.replace(b"dump -\n", b"open -\nput 0 0 0 9\nclear 0 0\nsnap\nfinish\nsweep 0\nnew 0 0 0\ndump 1\n"),
        EXAMPLE_REPLIES.replace(
            b"ok\ndata",
            b"ok\nok pin 1 at 3\nok\nok\nok pushed 0\nok condemned 1\nok swept 1 empty\nok object 0x10000000\ndata",
            1,
        ),
    ),
    "rewind_too_far": (
        ["--keep", "3"],
        b"clear 0 0\n" * 4 + b"rewind 3\nrewind 1\n",
        b"ok\n" * 4 + b"ok place 1\nno 21 TooFar 1 0\n",
    ),
    "refusals_of_mutators": (
        [],
        b"class A - x:int x:int\nclass a+b -\nclass A 3\nclass Point - x:int y:int\nnew 0 0 0\nput 0 0 0 4294967296\n"
        b"load 0 1 0 2\nload 0 1 1 0\nstore 0 0 0 1\nput 0 0 1 5\nload 0 1 0 1\n",
        b"no 5 DuplicateName\nno 4 BadName\nno 2 NoClass\nok class 0\nok object 0x10000000\nno 11 OutOfRange\n"
        b"no 9 BadSlot\nno 8 NullRegister\nno 10 WrongKind\nok\nok value 5\n",
    ),
}


def worked(program):
    """Yields worked examples over a shared heap as (name, what happened, what must happen)."""
    for name, (words, lines, answers) in WORKED.items():
        yield name, served(program, ended(lines + b"end\n"), words), (0, b"session 1 quit\n", b"", answers)


# A class, and points of which a register names the last; the lines of a cycle; and lines that show what it left.
POINTS = b"class Point - x:int y:int\n" + b"new 0 0 0\n" * 100
CYCLE = b"snap\nmark\nfinish\nsweep 0\n"
AFTER = b"new 0 1 0\ndump -\n"


def cycle_by_workers(port):
    """A client makes points, says `snap` and waits until workers have done the cycle; another goes on from there. Returns what
    was answered last to the one, and to the other."""
    with connected(port) as first, connected(port) as second:
        for line in POINTS.splitlines():
            reply_of(first, line)
        replies = reply_of(first, b"snap"), repeated(first, b"finish", b"no 15 NotMarking")
        replies += (repeated(first, b"sweep 0", b"no 20 NothingToSweep 0"),)
        return replies, rest_of(second, AFTER + b"end\n"), rest_of(first, b"end\n")


def ending_in_a_cycle(port):
    """A client begins a cycle and undoes it, begins another, and ends."""
    with connected(port) as client:
        lines = b"new 0 0 0\n" + b"snap\nrewind 1\n" * 50
        return (rest_of(client, POINTS + lines + b"snap\nend\n")[-3:],)


def tended(program):
    """Yields sessions over a heap with workers as (name, what happened, what must happen)."""
    alone = run(program, ["run"], POINTS + CYCLE + AFTER)[1]
    after = alone[len(run(program, ["run"], POINTS + CYCLE)[1]) :]
    two = ["--sessions", "2", "--workers", "1"]
    told = (b"ok pushed 1", b"no 15 NotMarking", b"no 20 NothingToSweep 0")
    quits = b"session 1 quit\nsession 2 quit\n"
    yield "a cycle done by workers", served(program, cycle_by_workers, two), (0, quits, b"", told, after, b"")
    yield "a cycle done by workers that are asked for without a value", served(program, cycle_by_workers, ["--workers", *two[:2]]), (0, quits, b"", told, after, b"")
    happened = served(program, ending_in_a_cycle, ["--workers", "1"])
    yield "an end within a cycle", happened[:3], (0, b"session 1 quit\n", b"")
    idle = served(program, ended(EXAMPLE + b"end\n"), ["--workers=1"])
    yield "workers with nothing to do", idle, (0, b"session 1 quit\n", b"", EXAMPLE_REPLIES)
    none = served(program, ended(b"snap\nfinish\nend\n"), ["--workers", "0"])
    yield "no workers", none, (0, b"session 1 quit\n", b"", b"ok pushed 0\nok condemned 0\n")


def asked_beside(port):
    """The first client makes the point and asks for what the second must be told, which asks while the first is still there."""
    with connected(port) as first, connected(port) as second:
        made = answered(first, POINT + b"histogram -\n", len(POINT_MADE) + len(HISTOGRAM))
        return made, rest_of(second, b"histogram @3\nclear 0 0\ngarbage -\nend\n"), rest_of(first, b"dropped 0x10000000\nend\n")


HISTOGRAM = b"row 1 8 Point\nok 1 8\n"


def served_questions(program):
    """Yields sessions with questions over a shared heap as (name, what happened, what must happen)."""
    quit = (0, b"session 1 quit\n", b"")
    with_questions = ["--questions", "1"]
    for path in sorted(TOP.glob("checks/sessions/questions/*.session")):
        served_file = path.with_suffix(".served")
        lines, answers = path.read_bytes(), (served_file if served_file.exists() else path.with_suffix(".expected")).read_bytes()
        yield f"{path.stem}, served", served(program, ended(lines + b"end\n"), with_questions), (*quit, answers)
        happened = served(program, lambda port: explored(program, port, lines), with_questions)
        yield f"{path.stem}, explored from a port", happened, (*quit, 0, answers, b"")
    two = (0, b"session 1 quit\nsession 2 quit\n", b"")
    told = POINT_MADE + HISTOGRAM, HISTOGRAM + b"ok\n" + HISTOGRAM, b"ok place 4\n"
    yield "questions of two", served(program, asked_beside, ["--sessions", "2", *with_questions]), (*two, *told)
    bad = served(program, ended(b"histogram -\nhelp\ncollect\n# x\nend\n"))
    yield "no questions of a served heap", bad, (*quit, b"bad command\n" * 4)
    lines = POINT + b"clear 0 0\ncollect\nhistory 1\nend\n"
    collected = POINT_MADE + b"ok\nok condemned 1 swept 1\nrow 7 reclaim 0\nok 1\n"
    yield "a collection of a served heap", served(program, ended(lines), with_questions), (*quit, collected)
    yield "explores nobody", run(program, ["explore", "--port", str(free_port())], EXAMPLE), (1, b"", b"heapdbg: connect\n")


def explored(program, port, given):
    """Runs `explore --port`, once somebody listens on the port."""
    return asked(program, port, given, task="explore")


def asking(program):
    """Yields clients of `ask` as (name, what happened, what must happen)."""
    quit = (0, b"session 1 quit\n", b"")
    happened = served(program, lambda port: asked(program, port, EXAMPLE))
    yield "ask", happened, (*quit, 0, EXAMPLE_REPLIES, b"")
    happened = served(program, lambda port: asked(program, port, b"clear 0 0\nclear 0"))
    yield "ask without a last LF", happened, (*quit, 0, b"ok\nbad command\n", b"")
    happened = served(program, lambda port: asked(program, port, b""))
    yield "ask for nothing", happened, (*quit, 0, b"", b"")
    happened = served(program, lambda port: asked(program, port, b"a" * 5000 + b"\nclear 0 0\n" * 9))
    yield "ask too long a line", happened[:3], (0, b"session 1 long\n", b"")
    yield "ask nobody", run(program, ["ask", "--port", str(free_port())], EXAMPLE), (1, b"", b"heapdbg: connect\n")


# More bytes than the queues of a connection take, on its way there and back.
MANY_DUMPS = b"dump -\n" * 3_000_000


def listening_on_a_terminal(program):
    """Returns what `serve` says on a terminal that is its standard error, with PORT for its port, and its status."""
    terminal, error = os.openpty()
    with Server(program, None, stdout=subprocess.DEVNULL, stderr=error) as server:
        with server.client() as client:
            rest_of(client, b"end\n")
        status = server.run.wait(SECONDS)
    os.set_blocking(terminal, False)
    try:
        shown = os.read(terminal, 65536)
    except OSError:
        shown = b""
    os.close(error)
    os.close(terminal)
    return shown.replace(b"%d" % server.port, b"PORT"), status


def served_on_terminals(program):
    """Yields a server whose standard error is a terminal as (name, what happened, what must happen)."""
    yield "served beside a terminal", listening_on_a_terminal(program), (b"heapdbg: listening on 127.0.0.1:PORT\r\n", 0)


def served_faults(program):
    """Yields faults of `serve` and `ask` as (name, what happened, what must happen)."""
    with socket.create_server(("127.0.0.1", 0)) as server:
        taken = ["serve", "--port", str(server.getsockname()[1])]
        yield "a port in use", run(program, taken), (1, b"", b"heapdbg: listen\n")
        large = [*taken, "--regions", "256", "--keep", "65536", "--sessions", "1000"]
        enough = next(n for n in range(1, 64) if run(program, ["run"], preexec_fn=limited(n * MEBIBYTE))[0] == 0)
        ran = run(program, large, preexec_fn=limited(enough * MEBIBYTE))
        yield "little memory before a port in use", ran, (1, b"", b"heapdbg: memory\n")
    with open("/dev/full", "wb") as full:
        happened = served(program, ended(b"end\n"), stdout=full)
        yield "a full output of serve", happened, (1, b"", b"heapdbg: write\n", b"")
        happened = served(program, lambda port: asked(program, port, EXAMPLE, stdout=full))
        yield "a full output of ask", happened[3:], (1, b"", b"heapdbg: write\n")
        happened = served(program, lambda port: asked(program, port, MANY_DUMPS, stdout=full))
        yield "a full output of ask with a large input", happened[3:], (1, b"", b"heapdbg: write\n")
        folder = os.open("/", os.O_RDONLY)
        happened = served(program, lambda port: asked(program, port, b"", stdin=folder))
        yield "a folder as input of ask", happened, (0, b"session 1 quit\n", b"", 1, b"", b"heapdbg: read\n")
        os.close(folder)
    fetch = ["fetch", "--port", str(free_port()), "--out"]
    yield "fetches from nobody", run(program, [*fetch, "/dev/null"]), (1, b"", b"heapdbg: connect\n")
    yield "fetches to no folder", run(program, [*fetch, "/none/x"]), (1, b"", b"heapdbg: out\n")
    # Standard streams and the listener take four files, a session one more.
    happened = served(program, lambda port: (), ["--sessions", "2"], preexec_fn=files(4))
    yield "no accept", happened, (1, b"", b"heapdbg: accept\n")
    happened = served(program, ended(b"clear 0 0\nend\n"), ["--sessions", "2"], preexec_fn=files(5))
    yield "no second accept", happened, (1, b"session 1 quit\n", b"heapdbg: accept\n", b"ok\n")
