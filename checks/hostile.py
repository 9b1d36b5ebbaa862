#!/usr/bin/env python3
"""Has hostile clients beside honest ones on one served heap that stays: `hostile.py [PROGRAM ..]`, for `SECONDS` seconds (60).

PROGRAM is `bin/heapdbg` if it isn't given; words before its name are a command that runs it. Two honest clients write a slot, and
wait for each reply: alone; beside all kinds of `HOSTILE`, which begin anew when the server ends them; beside eight sessions that ask
about 1,000 objects without rest; beside eight that act so; and alone again. Prints a line for each answer of an honest client that
isn't `ok`; for memory that grows; for a session that ended by no known word; for one round trip in a hundred, or a whole dump after
the hostile clients have gone, that takes a second; and if the server doesn't end at a signal and leave all ports free. A run of a
minute or more also bounds times as users feel them: it prints a line for a client whose median round trip took more than twice as
long beside hostile ones as alone, or of whose round trips one in a hundred took 5 ms beside eight, and if no whole dump comes in the
100 ms after the hostile clients have gone. Prints how much was done and how long it took, but for `QUIET=1`. Status 1 if anything was
wrong."""
import contextlib
import json
import os
import pathlib
import re
import select
import signal
import socket
import statistics
import struct
import subprocess
import sys
import threading
import time

from servers import LIMIT, DumpServer, connection, memory_of

TOP = pathlib.Path(__file__).resolve().parent.parent

SEATS, HONEST, OBJECTS = 60, 2, 1000
OPTIONS = ("--stay", "1", "--idle", "2", "--questions", "1", "--workers", "1", "--mutators", str(HONEST + 1))
# The lines of a write that the heap refuses, and of a definition that it refuses whole, with 680 fields.
REFUSED, LONG = b"clear 0 9\n", b"class A -" + 680 * b" a:int" + b"\n"
# How many lines wait for their replies, and how many bytes a client that doesn't read takes.
AHEAD, ROOM = 40, 4096
# How much longer a round trip may take beside hostile clients; the most milliseconds for all but one in a hundred beside eight that
# take no rest; and the most for a fetch. Each is the best of several parts, since others work on the machine, too.
TIMES, CROWD_MS, FETCH_MS, PARTS = 2, 5, 100, 3
# The most milliseconds of these in a run of less than a minute, which tells only whether somebody stands still.
STILL_MS = 1000
# By how many bytes the program may grow for a full chronicle; and by how many its peak may grow from the second quarter of the time
# to the last one, if that is a minute in all.
CHRONICLE, FLAT, MINUTE = 240_000_000, 8_000_000, 60
# The last record of a dump.
END = b"\x2c" + bytes(8)
WORDS = set("quit eof cut long read reads write memory http secret idle".split())
ENDING = re.compile(r"session [1-9][0-9]* (\w+)")
TOLD = re.compile(rb"(heapdbg: dump \w+( \(\d+ times\))?\n){0,999}(heapdbg: nothing is told of further dumps\n)?")


def until_ended(client):
    """Reads until the other side closes."""
    client.settimeout(None)
    while client.recv(1 << 16):
        pass


def stalled(port, _):
    """Sends half a line."""
    with connection(port) as client:
        client.sendall(b"put 0 0 1")
        until_ended(client)


def half_open(port, _):
    """Sends nothing."""
    with connection(port) as client:
        until_ended(client)


def slow(port, _):
    """Sends twenty bytes a second."""
    with connection(port) as client:
        for byte in b"what is this\n" * 100:
            client.sendall(bytes((byte,)))
            time.sleep(0.05)


def flooding(port, _, line=REFUSED, ahead=AHEAD):
    """Sends lines whose replies are a line each: `ahead` lines before the first reply, and then another one for each reply."""
    with connection(port) as client:
        client.sendall(line * ahead)
        while come := client.recv(1 << 16):
            client.sendall(line * come.count(b"\n"))


def defining(port, dumps):
    """Sends long refused definitions without rest."""
    flooding(port, dumps, LONG)


def asking(port, dumps):
    """Asks a question about all objects again and again."""
    flooding(port, dumps, b"garbage -\n", 1)


def acting(port, dumps):
    """Acts without rest."""
    flooding(port, dumps, b"move 0 0 0 1\n")


def browsing(port, dumps):
    """Sends a request with lines to both ports."""
    for each in (port, dumps):
        with connection(each) as client:
            client.sendall(b"POST / HTTP/1.1\r\nHost: a\r\nContent-Length: 13\r\n\r\nrewind 2\nend\n")
            until_ended(client)
    time.sleep(0.05)


def unread(port, _):
    """Asks for dumps, and reads nothing."""
    with connection(port, ROOM) as client:
        client.settimeout(None)
        client.sendall(b"dump -\n" * 10_000)
        time.sleep(LIMIT)


def unread_dump(_, dumps):
    """Reads nothing of a dump."""
    with connection(dumps, ROOM):
        time.sleep(LIMIT)


def reset(port, dumps):
    """Opens a pin, and asks for a dump, and resets both connections."""
    for each in (port, dumps):
        client = connection(each)
        client.sendall(b"open -\nput 0 0 1") if each == port else None
        client.setsockopt(socket.SOL_SOCKET, socket.SO_LINGER, struct.pack("ii", 1, 0))
        client.close()
    time.sleep(0.05)


def scanning(port, dumps):
    """Connects to both ports ten times, and closes at once."""
    for each in (port, dumps) * 10:
        connection(each).close()
    time.sleep(0.2)


# What hostile clients do, and how many of them do it at a time; and those who take no rest.
HOSTILE = {stalled: 4, half_open: 8, slow: 2, flooding: 1, defining: 1, browsing: 2, unread: 2, unread_dump: 1, reset: 2, scanning: 1}
CROWDS = {asking: 8, acting: 8}


def does(kind, count, port, dumps):
    """Has as many clients of a kind, again and again."""
    def again():
        while True:
            with contextlib.suppress(OSError):
                kind(port, dumps)
                continue
            time.sleep(0.02)

    for _ in range(count):
        threading.Thread(target=again, daemon=True).start()
    print("begun", flush=True)
    threading.Event().wait()


class Honest:
    """A session that writes a slot of its mutator's object."""

    def __init__(self, port, number):
        self.client = connection(port)
        self.client.setsockopt(socket.IPPROTO_TCP, socket.TCP_NODELAY, 1)
        self.answers = self.client.makefile("rb")
        self.number, self.wrong = number, []
        self.reply(b"class Node - next:object v:long\n", None)
        for line in (b"new %d 0 0\n", b"store %d 0 0 1\n", b"move %d 1 %d 0\n") * (OBJECTS // HONEST):
            self.reply(line.replace(b"%d", b"%d" % number), b"ok")

    def reply(self, line, wanted):
        """Sends a line, and looks at its reply."""
        self.client.sendall(line)
        come = self.answers.readline()
        if wanted and not come.startswith(wanted):
            self.wrong.append(f"{line!r} was answered {come!r}")
        return come

    def times(self, seconds):
        """Returns how many milliseconds each of the round trips of some seconds took, in order of length."""
        found, end = [], time.perf_counter() + seconds
        line = b"put %d 0 1 7\n" % self.number
        while (began := time.perf_counter()) < end:
            if not self.reply(line, b"ok"):
                break
            found.append(1000 * (time.perf_counter() - began))
            time.sleep(0.0005)
        return sorted(found)

    def ends(self):
        """Ends the session."""
        self.reply(b"end\n", None)
        self.client.close()


def order(honest):
    """Returns the next line of standard input. Until it comes, the session acts now and then, so that it isn't idle."""
    while not select.select([sys.stdin], [], [], 0.5)[0]:
        honest.reply(b"clear %d 2\n" % honest.number, b"ok")
    return sys.stdin.readline()


def works(number, port):
    """Is an honest client in a process of its own: for each line with a number of seconds it prints its median, the 99th of a
    hundred, and the number of its round trips."""
    honest = Honest(port, number)
    while line := order(honest):
        found = honest.times(float(line))
        print(json.dumps([statistics.median(found), found[len(found) * 99 // 100], len(found)]), flush=True)
    honest.ends()
    print(json.dumps(honest.wrong), flush=True)


def client_process(*words):
    """Starts this program as a client."""
    return subprocess.Popen([sys.executable, __file__, "client", *map(str, words)], stdin=subprocess.PIPE, stdout=subprocess.PIPE,
                            stderr=subprocess.DEVNULL, text=True)


def measured(honest, seconds):
    """Returns what each honest client measures in some seconds."""
    for child in honest:
        print(seconds, file=child.stdin, flush=True)
    return [json.loads(child.stdout.readline()) for child in honest]


def is_free(port):
    """Tells whether a port can be had."""
    try:
        socket.create_server(("127.0.0.1", port)).close()
        return True
    except OSError:
        return False


def fetched(port):
    """Returns how many milliseconds it took until a whole dump had come, while clients that have gone may still hold all pins."""
    began, dump = time.perf_counter(), b""
    while not dump.endswith(END) and time.perf_counter() - began < LIMIT:
        with contextlib.suppress(ConnectionResetError), connection(port) as client:
            dump = b"".join(iter(lambda: client.recv(1 << 16), b""))
    return 1000 * (time.perf_counter() - began)


@contextlib.contextmanager
def others(port, dumps, kinds):
    """Has clients of some kinds, each in a process of its own, until it is left. Begins once all have begun."""
    children = [client_process(kind.__name__, count, port, dumps) for kind, count in kinds.items()]
    try:
        for child in children:
            child.stdout.readline()
        yield children
    finally:
        for child in children:
            child.kill()
            child.communicate()


class HeardServer(DumpServer):
    """A `serve` for these clients, whose lines are read as they come."""

    def __init__(self, program):
        super().__init__(program, SEATS, *OPTIONS)
        self.said = [b"", b""]
        self.readers = [threading.Thread(target=self.read, args=it) for it in enumerate((self.run.stdout, self.run.stderr))]
        for reader in self.readers:
            reader.start()

    def __exit__(self, *_):
        self.run.kill()
        for reader in self.readers:
            reader.join(LIMIT)
        super().__exit__()

    def read(self, at, stream):
        """Reads what the program says."""
        for line in stream:
            self.said[at] += line

    def faults(self):
        """Ends the program, and yields what is wrong with its end."""
        self.run.send_signal(signal.SIGTERM)
        try:
            self.run.wait(LIMIT)
        except subprocess.TimeoutExpired:
            self.run.kill()
            yield "the program didn't end at a signal"
        for reader in self.readers:
            reader.join(LIMIT)
        ends = [ENDING.fullmatch(line) for line in self.said[0].decode().splitlines()]
        if not all(found and found[1] in WORDS for found in ends):
            yield f"endings {self.said[0][:400]!r}"
        if not TOLD.fullmatch(self.said[1]):
            yield f"standard error {self.said[1][:400]!r}"
        for port in (self.port, self.dumps):
            if not is_free(port):
                yield f"the port {port} isn't free"


def slowdowns(found):
    """Yields which honest clients were slowed down."""
    for number, (first, middle, last, *_) in enumerate(zip(*found.values()), 1):
        quiet = max(first[0], last[0])
        if middle[0] > TIMES * quiet:
            yield f"client {number}: the median round trip took {middle[0]:.3f} ms beside hostile clients, {quiet:.3f} alone"
    yield from waits(found, [f"beside {count} clients {kind.__name__}" for kind, count in CROWDS.items()], CROWD_MS)


def waits(found, names, limit):
    """Yields in which parts one round trip in a hundred took as many milliseconds as the limit."""
    for name in names:
        for number, (_, most, _) in enumerate(found[name], 1):
            if most >= limit:
                yield f"client {number}: one round trip in a hundred took {most:.1f} ms {name}"


def growths(looks, seconds):
    """Yields by how much the program grew too far, of its memory again and again beside hostile clients."""
    quarter = len(looks) // 4
    if max(looks) - looks[0] > CHRONICLE:
        yield f"the program grew by {max(looks) - looks[0]:,} bytes"
    if seconds >= MINUTE and max(looks[-quarter:]) - max(looks[quarter : 2 * quarter]) > FLAT:
        yield f"the program grew from {max(looks[quarter : 2 * quarter]):,} bytes to {max(looks[-quarter:]):,}"


@contextlib.contextmanager
def watched(server, looks):
    """Adds the memory of the program to a list ten times a second, until it is left."""
    ended = threading.Event()

    def watch():
        while not ended.wait(0.1):
            looks.append(memory_of(server.run) or 0)

    thread = threading.Thread(target=watch)
    thread.start()
    try:
        yield
    finally:
        ended.set()
        thread.join()


def beside(server, honest, kinds, seconds):
    """Returns what the honest clients measure beside others: the best of some parts."""
    with others(server.port, server.dumps, kinds) as children:
        measured(honest, 0.3)
        parts = [measured(honest, seconds / PARTS) for _ in range(PARTS)]
        if lost := [child.args[3] for child in children if child.poll() is not None]:
            raise RuntimeError(f"hostile clients broke off: {lost}")
    return [[*map(min, list(zip(*each))[:2]), sum(count for *_, count in each)] for each in zip(*parts)]


@contextlib.contextmanager
def clients(port):
    """Has the honest clients, until it is left."""
    honest = [client_process("honest", number, port) for number in range(1, HONEST + 1)]
    try:
        yield honest
    finally:
        for child in honest:
            child.kill()


def tried(server, honest, seconds):
    """Returns what the honest clients measure, by name; the memory of the program beside hostile clients; and when a whole dump came
    after them."""
    looks = [memory_of(server.run) or 0]
    measured(honest, 0.2)
    found = {"alone": measured(honest, seconds / 10)}
    with watched(server, looks):
        found["beside hostile clients"] = beside(server, honest, HOSTILE, seconds * 6 / 10)
    took = fetched(server.dumps)
    found["alone again"] = measured(honest, seconds / 10)
    for kind, count in CROWDS.items():
        found[f"beside {count} clients {kind.__name__}"] = beside(server, honest, {kind: count}, seconds / 10)
    return found, looks, took


def attempted(program, seconds):
    """Has the clients work. Returns the faults, and the measurements."""
    with HeardServer(program) as server:
        server.dump_client().close()
        with clients(server.port) as honest:
            found, looks, took = tried(server, honest, seconds)
            wrong = [text for child in honest for text in json.loads(child.communicate(timeout=LIMIT)[0])]
        wrong += slowdowns(found) if seconds >= MINUTE else waits(found, found, STILL_MS)
        if took > (FETCH_MS if seconds >= MINUTE else STILL_MS):
            wrong.append(f"a whole dump came after {took:.0f} ms")
        return [*wrong, *growths(looks, seconds), *server.faults()], (found, looks, took, server)


def main(program, seconds):
    """Returns the exit status."""
    wrong, seen = attempted(program, seconds)
    for text in wrong[:50]:
        print(text)
    if os.environ.get("QUIET") != "1":
        account(*seen)
    return 1 if wrong else 0


def account(found, looks, took, server):
    """Prints how much was done."""
    for name, each in found.items():
        for number, (median, most, count) in enumerate(each, 1):
            print(f"client {number} {name}: {count} round trips, median {median:.3f} ms, 99 of 100 below {most:.3f}")
    print(f"memory: {looks[0]:,} bytes, {max(looks):,} at most; a whole dump came after {took:.1f} ms")
    words = [line.split()[-1].decode() for line in server.said[0].splitlines()]
    print("endings: " + ", ".join(f"{words.count(word)} {word}" for word in sorted(set(words))))


if __name__ == "__main__":
    if sys.argv[1:2] == ["client"]:
        name, *numbers = sys.argv[2:]
        works(*map(int, numbers)) if name == "honest" else does(globals()[name], *map(int, numbers))
    else:
        sys.exit(main(sys.argv[1:] or [os.path.join(TOP, "bin/heapdbg")], float(os.environ.get("SECONDS") or 60)))
