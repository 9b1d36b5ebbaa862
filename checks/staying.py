#!/usr/bin/env python3
"""Checks heaps that are served until they are ended from outside, and what ended and idle sessions cost.

Usage: checks/staying.py PROGRAM ..
Each wait has a limit. Prints a line for each difference and ends with status 1 if there is one. Prints nothing if all is well."""
import contextlib
import os
import resource
import select
import signal
import socket
import struct
import sys

from servers import LIMIT, Server, memory_of
from serving import Client, begins_cycle

# The clients that scan a port, and those that connect and say nothing.
SCANS, SILENT = 50, 50
# The clients that come one after another while nobody reads standard output. Their lines don't fit into a pipe of 65,536 bytes and
# the 1,024 endings that wait.
UNREAD = 6_000
# The acts of one client: more than a chronicle keeps.
ACTS = 1_050_000
# The clients until the program has grown to its size, those after, and the most bytes by which it may grow by them.
FIRST, MORE, MOST_GROWTH = 500, 5_000, 2_000_000
# The clients that come one after another under a limit of address space, in bytes.
CLIENTS, ADDRESSES = 300, 1 << 30
# The sessions that are idle after a first line, and the most bytes of memory that the program may have with them.
IDLE, MOST_MEMORY = 1_000, 40_000_000
# An act that is refused, and its reply.
REFUSED, REFUSAL = b"clear 0 9\n", b"no 7 BadRegister\n"


class Told:
    """The lines that a server tells, as they come."""

    def __init__(self, server):
        self.place = server.run.stdout.fileno()
        self.bytes = b""

    def line(self):
        """Returns the next line, or what has come of it when the time is up or no more can come."""
        while b"\n" not in self.bytes:
            if not select.select([self.place], [], [], LIMIT)[0]:
                break
            come = os.read(self.place, 4096)
            if not come:
                break
            self.bytes += come
        line, _, self.bytes = self.bytes.partition(b"\n")
        return line.decode()


@contextlib.contextmanager
def staying(program, sessions, *options):
    """Serves `sessions` clients at a time. Yields the server."""
    value = ["1"] if options else []
    with Server(program, sessions, "--stay", *value, *options) as server:
        yield server


def stopped(server):
    """Ends a server from outside. Returns its status, and whether its port is free then."""
    server.run.send_signal(signal.SIGTERM)
    status = server.run.wait(LIMIT)
    with contextlib.suppress(OSError), socket.create_server(("127.0.0.1", server.port), reuse_port=False):
        return status, True
    return status, False


# What `stopped` returns of a server that did as it must.
ENDED = -signal.SIGTERM, True


def reply_of(server, line):
    """Returns the reply to a line of a new client, which then ends its session, or the name of the error if its connection is lost."""
    with Client(server) as client:
        try:
            return client.reply(line), client.ended()
        except OSError as error:
            return type(error).__name__


def reset(client):
    """Ends a connection by a reset."""
    client.answers.close()
    client.socket.setsockopt(socket.SOL_SOCKET, socket.SO_LINGER, struct.pack("ii", 1, 0))
    client.socket.close()


def clients_in_turn(program):
    """Yields what three clients get from one seat, and what is told as each ends."""
    with staying(program, 1) as server:
        told = Told(server)
        found = []
        for last in b"end\n", b"", b"clear 0":
            with Client(server) as client:
                found.append(client.reply(b"array A\n"))
                client.socket.sendall(last)
                client.socket.shutdown(socket.SHUT_WR)
                client.answers.read()
            found.append(told.line())
        found.append(stopped(server))
    yield "clients in turn", found, [b"ok class 0\n", "session 1 quit", b"no 5 DuplicateName\n", "session 2 eof",
                                     b"no 5 DuplicateName\n", "session 3 cut", ENDED]


def scanned(program):
    """Yields what a client gets beside clients that say nothing, and after others that go at once."""
    with staying(program, SILENT + 1) as server, contextlib.ExitStack() as silent:
        for _ in range(SILENT):
            silent.enter_context(server.client())
        for _ in range(SCANS):
            server.client().close()
        found = reply_of(server, REFUSED), stopped(server)
    yield "a client among scans", found, ((REFUSAL, b""), ENDED)


def lines_of(client, line):
    """Returns the lines of an answer that ends with a line `ok ..`."""
    lines = [client.reply(line)]
    while lines[-1].startswith(b"row "):
        lines.append(client.answers.readline())
    return b"".join(lines)


def pins(program):
    """Yields which pins are left when sessions end, and what `keep` and `pins` are answered."""
    with staying(program, 2) as server:
        found = []
        with Client(server) as one:
            found += [one.reply(line) for line in (b"open -\n", b"open -\n", b"open -\n", b"keep 2\n", b"keep 2\n", b"keep 9\n")]
            found += [one.reply(line) for line in (b"keep\n", b"keep 1 2\n", b"keep x\n", b"garbage -\n")]
            with Client(server) as other:
                found += [other.reply(b"close 3\n"), one.reply(b"keep 3\n"), other.reply(b"keep 1\n"), other.ended()]
            found += [lines_of(one, b"pins\n"), one.ended()]
        with Client(server) as last:
            last.reply(b"open -\n")
            reset(last)
        with Client(server) as one:
            found.append(left(one, 1))
        found.append(stopped(server))
    opened = [b"ok pin %d at 0\n" % n for n in (1, 2, 3)]
    no_pin, bad = b"no 22 NoPin\n", b"bad command\n"
    rows = [b"row %d 0 held 0\n" % n for n in (1, 2)]
    yield "pins of a heap that stays", found, [*opened, b"ok\n", no_pin, no_pin, bad, bad, bad, bad, b"ok\n", no_pin, no_pin, b"",
                                               b"".join(rows) + b"ok 2\n", b"", rows[1] + b"ok 1\n", ENDED]


def left(client, count):
    """Returns the answer to `pins`, once no more than `count` are open or the time is up."""
    for _ in range(LIMIT * 100):
        answer = lines_of(client, b"pins\n")
        if answer.count(b"row ") <= count:
            break
        select.select([], [], [], 0.01)
    return answer


def pins_reused(program):
    """Yields how many of many pins a session can open which another closes."""
    with staying(program, 2) as server, Client(server) as one, Client(server) as other:
        found = [(one.reply(b"open -\n"), other.reply(b"close %d\n" % n)) for n in range(1, 101)]
        found.append(stopped(server))
    yield "pins that another session closes", found, [*((b"ok pin %d at 0\n" % n, b"ok\n") for n in range(1, 101)), ENDED]


def unread(program):
    """Yields what clients get whose endings nobody reads."""
    with staying(program, 1) as server:
        found = {reply_of(server, REFUSED) for _ in range(UNREAD)}, stopped(server)
    yield "standard output that nobody reads", found, ({(REFUSAL, b"")}, ENDED)


def many_acts(program):
    """Yields the replies to more acts than a chronicle keeps."""
    with staying(program, 1) as server, Client(server) as client:
        found = client.replies(REFUSED * ACTS, ACTS), stopped(server)
    yield "more acts than are kept", found, ({REFUSAL: ACTS}, ENDED)


def many_clients(program):
    """Yields whether a server stays as it is over many clients."""
    with staying(program, 2) as server:
        told = Told(server)
        sizes = []
        for count in FIRST, MORE:
            for _ in range(count):
                reply_of(server, REFUSED)
                told.line()
            sizes.append(memory_of(server.run))
        found = sizes[1] - sizes[0] < MOST_GROWTH, stopped(server)
    yield "memory over many clients", found, (True, ENDED)


def tended(program):
    """Yields whether workers end the cycles that clients begin, one client after another."""
    with staying(program, 1, "--workers", "1") as server:
        found = []
        for _ in range(3):
            with Client(server) as client:
                client.replies(b"class Point - x:int y:int\nnew 0 0 0\n", 2)
                found.append((begins_cycle(client), begins_cycle(client), client.ended()))
        found.append(stopped(server))
    yield "workers of a heap that stays", found, [*[(True, True, b"")] * 3, ENDED]


def limited(program, sessions):
    """Returns a server under a limit of address space."""
    return Server(program, sessions, preexec_fn=lambda: resource.setrlimit(resource.RLIMIT_AS, (ADDRESSES, ADDRESSES)))


def joined(program):
    """Yields how sessions ended that came one after another under a limit of address space."""
    with limited(program, CLIENTS) as server:
        replies = {reply_of(server, REFUSED) for _ in range(CLIENTS)}
        found = replies, server.ended()
    yield "sessions one after another", found, ({(REFUSAL, b"")}, (0, ["quit"] * CLIENTS, b""))


def idle(program):
    """Yields whether a server with many idle sessions takes little memory."""
    with Server(program, IDLE) as server, contextlib.ExitStack() as clients:
        replies = {clients.enter_context(Client(server)).reply(REFUSED) for _ in range(IDLE)}
        size = memory_of(server.run)
    yield "idle sessions", (replies, min(size, MOST_MEMORY)), ({REFUSAL}, size)


CASES = clients_in_turn, scanned, pins, pins_reused, unread, many_acts, many_clients, tended, joined, idle


def differences(program):
    """Yields a line for each run that went otherwise than it must."""
    for case in CASES:
        for name, found, wanted in case(program):
            if found != wanted:
                yield f"{program}, {name}: {found!r:.400}, and must be {wanted!r:.400}"


def main(programs):
    """Returns the exit status: 0 if every run of every program went as it must."""
    if not programs:
        print("usage: checks/staying.py PROGRAM ..")
        return 2
    found = [line for program in programs for line in differences(os.path.abspath(program))]
    print("\n".join(found), end="\n" if found else "")
    return 1 if found else 0


if __name__ == "__main__":
    sys.exit(main(sys.argv[1:]))
