#!/usr/bin/env python3
"""Checks what clients of a served heap have over many cycles and many acts.

Usage: checks/serving.py PROGRAM ..
Each wait has a limit. Prints a line for each difference and ends with status 1 if there is one. Prints nothing if all is well."""
import contextlib
import os
import statistics
import sys
import threading
import time

from servers import LIMIT, Server, all_of, memory_of

# The number of cycles that the marker has to end, and the lines that leave garbage before each: an array in each of 60 regions, so
# that it takes the sweeper 60 acts to remove what a cycle condemned, and the marker ends the next one before that.
CYCLES = 100
FILLED = 60
ARRAYS = FILLED * b"newprim 0 1 long 1024\n"
# The seconds that a cycle of one object may take.
CYCLE_LIMIT = 3
# The number of replies in a round, of rounds, the seconds between two replies, and the most seconds of the median reply in the
# quickest round. A worker looks for work about once in a millisecond: a reply that waits for that takes longer.
REPLIES, ROUNDS, PAUSE, MOST_SECONDS = 60, 5, 0.0005, 0.0005
# The number of acts that a heap with `--roll 1` forgets together, and the most bytes by which the program may grow while it forgets
# as many. That many definitions take 112,000,000 bytes.
BLOCK, MOST_GROWTH = 500_000, 20_000_000
# The most bytes of the chronicle for an act, and by how many more the program may grow, whatever clients send.
ACT_BYTES, MORE_BYTES = 224, 2_000_000
# How many definitions a client sends that aren't kept whole: one of 680 fields, which is refused, and one of 64 fields with long
# names. Whole, each takes more than 40,000 bytes, or 6,000.
LONG = 5_000
REFUSED = b"class A -" + 680 * b" a:int" + b"\n"
ACCEPTED = b"class " + 64 * b"A" + b" -" + b"".join(b" field%02d%s:int" % (n, 50 * b"x") for n in range(64)) + b"\n"
# Lines that leave one object, which no register names: a whole cycle condemns and removes it.
GARBAGE = b"new 0 0 0\nclear 0 0\n"


class Client:
    """A client of a server, which reads one reply to each line."""

    def __init__(self, server):
        self.socket = server.client()
        self.answers = self.socket.makefile("rb")

    def reply(self, line):
        """Sends a line, and returns its reply."""
        self.socket.sendall(line)
        return self.answers.readline()

    def replies(self, lines, count):
        """Sends `count` lines, and returns how many replies there are of each text."""
        found = {}
        sender = threading.Thread(target=self.socket.sendall, args=(lines,))
        sender.start()
        for _ in range(count):
            reply = self.answers.readline()
            found[reply] = found.get(reply, 0) + 1
        sender.join(LIMIT)
        return found

    def ended(self):
        """Sends `end`, and returns what comes after it."""
        self.socket.sendall(b"end\n")
        return all_of(self.socket)

    def __enter__(self):
        return self

    def __exit__(self, *_):
        self.answers.close()
        self.socket.close()


@contextlib.contextmanager
def serving(program, *options):
    """Serves one client. Yields the server and the client."""
    with Server(program, 1, *options) as server, Client(server) as client:
        yield server, client


def begins_cycle(client):
    """Sends `snap` until it begins a cycle. Returns whether it did so in time."""
    late = time.monotonic() + CYCLE_LIMIT
    while time.monotonic() < late:
        if client.reply(b"snap\n").startswith(b"ok pushed "):
            return True
        time.sleep(0.0002)
    return False


def cycles_by_workers(program):
    """Yields how many cycles a client begins, each as soon as the marker among the workers has ended the one before. Regions wait to be
    swept then, so that the marker is refused to end the new one at once."""
    with serving(program, "--workers", "1", "--regions", "256") as (server, client):
        made = client.replies(b"class Point - x:int y:int\nnew 0 0 0\n", 2)
        begun = 0
        while begun < CYCLES and client.replies(ARRAYS, FILLED) and begins_cycle(client):
            begun += 1
        found = len(made), begun, client.ended(), server.ended()
    yield f"cycles that a client begins and workers end, each in {CYCLE_LIMIT} s", found, (2, CYCLES, b"", (0, ["quit"], b""))


def median_reply(client):
    """Returns the median of the seconds that a reply takes in a round of them, with a pause before each."""
    seconds = []
    for _ in range(REPLIES):
        time.sleep(PAUSE)
        begin = time.perf_counter()
        client.reply(b"clear 0 0\n")
        seconds.append(time.perf_counter() - begin)
    return statistics.median(seconds)


def replies_beside_idle_workers(program):
    """Yields whether replies come quickly beside workers that have nothing to do."""
    with serving(program, "--workers", "1") as (server, client):
        quickest = min(median_reply(client) for _ in range(ROUNDS))
        found = quickest < MOST_SECONDS or f"{1000 * quickest:.2f} ms", client.ended(), server.ended()
    yield f"the median reply beside idle workers, below {1000 * MOST_SECONDS} ms", found, (True, b"", (0, ["quit"], b""))


def forgotten_definitions(program):
    """Yields whether the program's memory stays, within `MOST_GROWTH`, while it forgets definitions of classes as fast as more come."""
    lines = b"class Point -\n" * BLOCK
    taken = {b"no 5 DuplicateName\n": BLOCK}
    with serving(program, "--roll", "1") as (server, client):
        found = [client.reply(b"class Point -\n")]
        found += [client.replies(lines, BLOCK) == taken for _ in range(3)]
        before = memory_of(server.run)
        found += [client.replies(lines, BLOCK) == taken]
        growth = memory_of(server.run) - before
        found += growth <= MOST_GROWTH or f"{growth} bytes more", client.ended(), server.ended()
    yield "500,000 definitions more, and as many forgotten", found, [b"ok class 0\n", *[True] * 5, b"", (0, ["quit"], b"")]


def growth_by(server, client, lines, count):
    """Sends lines twice. Returns what is answered, each with its number, and by how many bytes the program grows the second time."""
    client.replies(lines, count)
    before = memory_of(server.run)
    replies = client.replies(lines, count)
    return replies, memory_of(server.run) - before


def long_definitions(program):
    """Yields whether the program grows by no more than its acts may take while one client sends definitions that are refused, and
    another one that is accepted, and undoes it each time."""
    undone = ACCEPTED + b"rewind 1\n"
    for options in [], ["--roll", "1"]:
        with Server(program, 2, *options) as server, Client(server) as one, Client(server) as other:
            refused, growth = growth_by(server, one, LONG * REFUSED, LONG)
            accepted, more = growth_by(server, other, LONG * undone, 2 * LONG)
            within = [growth <= LONG * ACT_BYTES + MORE_BYTES or growth, more <= 2 * LONG * ACT_BYTES + MORE_BYTES or more]
            found = refused, accepted, *within, one.ended(), other.ended(), server.ended()[0]
        taken = {b"no 5 DuplicateName\n": LONG}, {b"ok class 0\n": LONG, b"ok place 0\n": LONG}
        yield f"growth by long definitions, {options}", found, (*taken, True, True, b"", b"", 0)


def collect_with_spaces(program):
    """Yields what `collect` answers with spaces before and after it."""
    forms = [b"collect", b"collect ", b" collect", b"  collect    "]
    with serving(program, "--questions", "1") as (server, client):
        found = [client.reply(b"class Point - x:int y:int\n")]
        for form in forms:
            client.replies(GARBAGE, 2)
            found.append(client.reply(form + b"\n"))
        found += client.ended(), server.ended()
    yield "`collect` with spaces", found, [b"ok class 0\n", *[b"ok condemned 1 swept 1\n"] * len(forms), b"", (0, ["quit"], b"")]


CASES = cycles_by_workers, replies_beside_idle_workers, forgotten_definitions, long_definitions, collect_with_spaces


def differences(program):
    """Yields a line for each run that went otherwise than it must."""
    for case in CASES:
        for name, found, wanted in case(program):
            if found != wanted:
                yield f"{program}, {name}: {found!r:.400}, and must be {wanted!r:.400}"


def main(programs):
    """Returns the exit status: 0 if every run of every program went as it must."""
    if not programs:
        print("usage: checks/serving.py PROGRAM ..")
        return 2
    found = [line for program in programs for line in differences(os.path.abspath(program))]
    print("\n".join(found), end="\n" if found else "")
    return 1 if found else 0


if __name__ == "__main__":
    sys.exit(main(sys.argv[1:]))
