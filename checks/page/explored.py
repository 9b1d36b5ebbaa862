"""Cases of `explore --page`: a session whose heap a page shows while it runs."""
import contextlib
import pathlib
import re
import socket
import subprocess
import tempfile

from asking import Page, dumped
from machine import Machine
from questions import Asking
from ports import free_port
from servers import LIMIT, TOP

# What the session says, line by line.
LINES = (b"class Point - x:int y:int", b"new 0 0 0", b"put 0 0 0 7", b"new 0 1 0", b"snap", b"rewind 1", b"open -", b"collect")
# What is asked of the page after each.
ASKED = ("histogram -", "registers -", "classes -", "history 9", "pins", "cells")
ADDRESS = re.compile(rb"heapdbg: page http://127\.0\.0\.1:\d+/#[0-9a-f]{32}\n")


class Explored(Page):
    """A session of `explore --page` that goes on."""

    def __init__(self, program, *words):
        self.port = free_port()
        words = ["heapdbg", "explore", "--page", str(self.port), *words]
        pipe = subprocess.PIPE
        self.run = subprocess.Popen(words, executable=program, stdin=pipe, stdout=pipe, stderr=pipe)
        self.read_address(self.run.stderr)

    def say(self, line):
        """Says a line in the session, and returns its answer."""
        self.run.stdin.write(line + b"\n")
        self.run.stdin.flush()
        come = b""
        while not re.search(rb"(?m)^(ok|no|bad)[^\n]*\n\Z", come):
            come += self.run.stdout.readline() or b"bad end\n"
        return come.decode()

    def is_gone(self):
        """Returns whether nobody listens on the page's port."""
        with socket.socket() as client:
            return client.connect_ex(("127.0.0.1", self.port)) != 0

    def __enter__(self):
        return self

    def __exit__(self, *_):
        self.run.kill()
        self.run.communicate()


def ran(program, words, given):
    """Returns status, standard output, and standard error without the address, of a session to its end."""
    done = subprocess.run(["heapdbg", *words], executable=program, input=given, capture_output=True, timeout=LIMIT)
    error, addresses = ADDRESS.subn(b"", done.stderr, 1)
    return done.returncode, done.stdout, error, addresses


def beside_its_page(program):
    """Yields what the session and its page say in turn, as (name, what happened, what must happen)."""
    model = Asking(Machine())
    with Explored(program) as session:
        for line in LINES:
            yield f"{line} beside the page", session.say(line), model.answer(line).decode()
            for asked in ASKED:
                yield f"{asked} on the page after {line}", session.asked(asked), model.answer(asked.encode()).decode()
        status = session.asked("status")
        yield "status, in the session and on the page", session.say(b"status"), status
        # (the six events and rewinds of the lines, and the steps of `collect`)
        steps = model.machine.place - 4
        yield "the acts", status.splitlines()[-2:], [f"row acts {6 + steps}", "ok 8"]
        yield "a dump of its page", session.dump("@3"), dumped(model.machine, 3)
        yield "an act on its page", session.asked("snap"), "bad command\n"
        yield "no key for its page", session.status(body=b"pins"), 401


def ends(program):
    """Yields how sessions and their pages end."""
    for name, last in (("end", b"end\n"), ("the end of input", b"")):
        with Explored(program) as session, socket.create_connection(("127.0.0.1", session.port), LIMIT) as browser:
            session.say(b"snap")
            yield f"the page before {name}", session.asked("pins"), "ok 0\n"
            out, error = session.run.communicate(last, LIMIT)
            yield f"{name} beside a browser", (session.run.returncode, out, error), (0, b"", b"")
            yield f"the page after {name}", session.is_gone(), True
            with contextlib.suppress(ConnectionError):
                yield f"the browser after {name}", browser.recv(1), b""
    with socket.create_server(("127.0.0.1", 0)) as taken:
        words = ["explore", "--page", str(taken.getsockname()[1])]
        yield "a port that is taken", ran(program, words, b"snap\n"), (1, b"", b"heapdbg: listen\n", 0)
    missing = ["explore", "--page", str(free_port()), "--from", str(TOP / "no/such/file")]
    yield "a page and no file", ran(program, missing, b"snap\n"), (1, b"", b"heapdbg: from\n", 1)
    missing = ["explore", "--page", str(free_port()), "--hprof", str(TOP / "no/such/file")]
    yield "a page and no dump", ran(program, missing, b"snap\n"), (1, b"", b"heapdbg: hprof\n", 1)
    yield "a cut line beside a page", ran(program, ["explore", "--page", str(free_port())], b"snap"), (1, b"bad cut\n", b"heapdbg: cut\n", 1)


def lines_first(program):
    """Yields a session after a file of lines, and one after a dump."""
    with tempfile.TemporaryDirectory() as folder:
        path = pathlib.Path(folder, "first")
        path.write_bytes(b"class A - x:int\nput 0 0 0 7\nnew 0 0 0\nfrobnicate\n")
        said = b"heapdbg: %s:2: no 8 NullRegister: put 0 0 0 7\nheapdbg: %s:4: bad command: frobnicate\n" % ((str(path).encode(),) * 2)
        words = ["explore", "--page", str(free_port()), "--from", str(path)]
        answers = b"row 0 x int 0\nok object A 1\n"
        yield "lines first, beside a page", ran(program, words, b"show - 0x10000000\n"), (0, answers, said, 1)
        saved = pathlib.Path(folder, "heap.hprof")
        ran(program, ["save", "--out", str(saved)], b"class A - x:int\nnew 0 0 0\n")
        words = ["explore", "--wide", "1", "--regions", "64", "--hprof", str(saved)]
        alone = ran(program, words, b"classes -\nregisters -\n")
        shown = ran(program, [*words, "--page", str(free_port())], b"classes -\nregisters -\n")
        yield "a dump first, beside a page", shown, (*alone[:3], 1)


def same_answers(program):
    """Yields each stored session with a page, and what it is answered without one."""
    for path in sorted(TOP.glob("checks/sessions/questions/*.session")):
        served = path.with_suffix(".served")
        answers = (served if served.exists() else path.with_suffix(".expected")).read_bytes()
        words = ["explore", "--page", str(free_port())]
        yield f"{path.stem} beside a page", ran(program, words, path.read_bytes()), (0, answers, b"", 1)
    for path in sorted(TOP.glob("checks/sessions/cases/*.session")):
        file = path.with_suffix(".args")
        words = file.read_text().split() if file.exists() else []
        alone = ran(program, ["explore", *words], path.read_bytes())
        shown = ran(program, ["explore", "--page", str(free_port()), *words], path.read_bytes())
        yield f"{path.stem} beside a page", shown, (*alone[:3], 1)


def explored(program):
    """Yields all cases as (name, what happened, what must happen)."""
    yield from beside_its_page(program)
    yield from ends(program)
    yield from lines_first(program)
    yield from same_answers(program)
