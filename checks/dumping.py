#!/usr/bin/env python3
"""Asks the built program for dumps of a served heap as clients do that read slowly, or never, or speak first.

Usage: checks/dumping.py PROGRAM ..
Nothing may hang: each wait has a limit. Prints a line for each difference and ends with status 1 if there is one. Prints nothing
where all is well."""
import contextlib
import os
import pathlib
import re
import select
import socket
import sys
import tempfile
import threading
import time

from servers import LIMIT, DumpServer, all_of
from sockets import PIN_LIMIT, Session, come, free_pins, full_heap

# The seconds after which a dump is cut off of which no byte goes out, and those by which that may be late.
PATIENCE, LATE = 10, 1.5
# The seconds in which what waits for nobody is done.
SOON = 1
# The bytes that a connection takes unread at the client's end: a few, so that the server sees each read.
ROOM = 4096
# The number of dumps that are sent at once.
SENDERS = 3
LINE = re.compile(rb"heapdbg: dump PinLimit(?: \((\d+) times\))?\n")


@contextlib.contextmanager
def full_server(program, sessions=1, *options):
    """Serves sessions on a heap whose dump no connection holds, and which the first of them, that it yields, has filled."""
    with DumpServer(program, sessions, "--regions", "256", "--questions", "1", *options) as server:
        client = server.client()
        full_heap(client)
        with Session(client.makefile("rb"), client.makefile("wb"), client.close) as session:
            yield server, session


def numbers(session):
    """Returns the numbers of the open pins."""
    return [row[0] for row in session.pins()]


def waited(condition, seconds):
    """Waits until a condition holds. Returns after how many seconds it does; None if it is too late."""
    begin = time.monotonic()
    while (now := time.monotonic() - begin) < seconds:
        if condition():
            return now
        time.sleep(0.01)
    return None


def is_soon(seconds):
    """Tells whether something was done, and soon."""
    return seconds is not None and seconds < SOON


def fetched_beside(server):
    """Returns what `fetch` tells, and what it fetched, if that is done soon."""
    with tempfile.TemporaryDirectory() as folder:
        path = pathlib.Path(folder, "dump")
        with server.fetching(path) as child:
            if waited(lambda: child.poll() is not None, SOON) is None:
                return None
            return come(child), path.read_bytes()


def whole(dump):
    """Returns what `fetched_beside` returns of a whole dump."""
    return (0, b"fetched %d\n" % len(dump), b""), dump


class SlowReader:
    """A client of the port for dumps that reads 2,000 bytes a second, and the rest at once when it is asked for all."""

    def __init__(self, server):
        self.client, self.over = server.dump_client(ROOM), threading.Event()
        self.read = b""
        self.thread = threading.Thread(target=self.go_on)
        self.thread.start()

    def go_on(self):
        """Reads slowly until it is over."""
        while not self.over.wait(0.1) and (part := self.client.recv(200)):
            self.read += part

    def rest(self):
        """Reads the rest, and returns all."""
        self.over.set()
        self.thread.join(LIMIT)
        with self.client:
            return self.read + all_of(self.client)


def stalled(program):
    """Yields what comes of a client that reads nothing, of one beside it that reads slowly, and of a `fetch` beside the two: the
    first is cut off after ten seconds, and its pin closed, the second has all, and the third all at once."""
    with full_server(program) as (server, session):
        dump = session.dump()
        with server.dump_client(ROOM) as silent:
            begin = waited(lambda: len(numbers(session)) == 1, SOON)
            first = numbers(session)
            slow = SlowReader(server)
            waited(lambda: len(numbers(session)) == 2, SOON)
            beside = fetched_beside(server)
            time.sleep(PATIENCE - 2)
            before = first[0] in numbers(session)
            cut = waited(lambda: first[0] not in numbers(session), 2 + LATE)
            left = len(numbers(session))
            part = all_of(silent)
        is_part = len(part) < len(dump) and dump.startswith(part)
        found = begin is not None, beside == whole(dump), before, cut is not None, left, is_part, slow.rest() == dump
        pins = free_pins(session)
        session.end()
        found += pins, server.ended()
    yield "a client that reads nothing, beside a slow one", found, (True, True, True, True, 1, True, True, 4, (0, ["quit"], b""))


def slow_pair(program):
    """Yields what a `fetch` has beside two clients that read slowly, and what they have: each has all, and the `fetch` at once."""
    with full_server(program) as (server, session):
        dump = session.dump()
        slow = SlowReader(server), SlowReader(server)
        both = waited(lambda: len(numbers(session)) == 2, SOON)
        found = both is not None, fetched_beside(server) == whole(dump), [each.rest() == dump for each in slow]
        session.end()
        found += (server.ended(),)
    yield "a fetch beside two slow clients", found, (True, True, [True, True], (0, ["quit"], b""))


def closed_pin(program):
    """Yields what comes of a dump whose client reads nothing, and of one that is read slowly, once a session closes their pins:
    both are cut off at once."""
    for kind in (lambda server: server.dump_client(ROOM), SlowReader):
        with full_server(program) as (server, session):
            dump = session.dump()
            client = kind(server)
            waited(lambda: len(numbers(session)) == 1, SOON)
            time.sleep(0.3)
            session.close(numbers(session)[0])
            begin = time.monotonic()
            told = bool(select.select([server.run.stderr], [], [], SOON)[0])
            seconds = time.monotonic() - begin
            part = client.rest() if kind is SlowReader else all_of(client)
            found = told, seconds < SOON / 2, len(part) < len(dump), dump.startswith(part), free_pins(session)
            session.end()
            found += (server.ended(),)
        yield "a pin that is closed", found, (True, True, True, True, 4, (0, ["quit"], b"heapdbg: dump Closed\n"))


def all_unread(program):
    """Yields what others have beside as many clients that read nothing as are served at once: a session works on and has a pin,
    and the server ends with it."""
    with full_server(program) as (server, session), contextlib.ExitStack() as clients:
        for _ in range(SENDERS + 1):
            clients.enter_context(server.dump_client(ROOM))
        held = waited(lambda: len(numbers(session)) == SENDERS, SOON)
        session.put(0, 0, 0, 7)
        pin = session.open()
        begin = time.monotonic()
        session.end()
        ended = server.ended()
        found = held is not None, pin.pin == SENDERS + 1, ended, time.monotonic() - begin < SOON
    yield "clients that read nothing", found, (True, True, (0, ["quit"], b""), True)


def unread_errors(program):
    """Yields what a client has after 3,000 dumps that were refused, while nobody reads standard error: its whole dump. The server
    ends as usual, and has reported all that were refused."""
    with DumpServer(program, 1, "--questions", "1") as server, server.session() as session:
        pins = [session.open().pin for _ in range(4)]
        refused = {server.dump() for _ in range(3000)}
        for pin in pins:
            session.close(pin)
        good = server.dump() == session.dump()
        session.end()
        status, words, error = server.ended()
    lines = error.splitlines(keepends=True)
    told = sum(int(found[1] or 1) if (found := LINE.fullmatch(line)) else 0 for line in lines)
    found = refused, good, status, words, lines[:1], len(lines) < 1000, told
    yield "3,000 refused dumps that nobody reads of", found, ({b""}, True, 0, ["quit"], [PIN_LIMIT], True, 3000)


def answer_to(server, given):
    """Sends bytes to the port for dumps, and returns all that comes, also if the connection is reset meanwhile."""
    found = b""
    with server.dump_client() as client, contextlib.suppress(OSError):
        client.sendall(given)
        client.shutdown(socket.SHUT_WR)
        while part := client.recv(65536):
            found += part
    return found


def speaks_first(program):
    """Yields what clients have that send something before their dump begins, and one that sends just the end: nothing, and all."""
    with DumpServer(program, 1, "--questions", "1") as server, server.session() as session:
        dump = session.dump()
        spoken = {answer_to(server, given) for given in (b"GET / HTTP/1.1\r\n\r\n", b"\n", b"\0" * 70_000) for _ in range(20)}
        found = spoken, answer_to(server, b"") == dump, server.dump() == dump, free_pins(session)
        session.end()
        found += (server.ended(),)
    yield "clients that speak first", found, ({b""}, True, True, 4, (0, ["quit"], b""))


CASES = stalled, slow_pair, closed_pin, all_unread, unread_errors, speaks_first


def differences(program):
    """Yields a line for each run that went otherwise than it must."""
    for case in CASES:
        try:
            for name, found, wanted in case(program):
                if found != wanted:
                    yield f"{program}, {name}: {found!r:.400}, and must be {wanted!r:.400}"
        except TimeoutError as late:
            yield f"{program}, {case.__name__}: {late}"


def main(programs):
    """Returns the exit status: 0 where every run of every program went as it must."""
    if not programs:
        print("usage: checks/dumping.py PROGRAM ..")
        return 2
    found = [line for program in programs for line in differences(os.path.abspath(program))]
    print("\n".join(found), end="\n" if found else "")
    return 1 if found else 0


if __name__ == "__main__":
    sys.exit(main(sys.argv[1:]))
