#!/usr/bin/env python3
"""Prints the session examples/leak.session: a server whose cache forgets to forget.

Each request makes a session with a buffer and enters it into a cache of eight chains. When the request ends, its entry is
unlinked. Those of requests that time out, one in five from request 20 on, stay. A cycle runs after each 40 requests. The model
of the checks says when it is done."""
import pathlib
import sys

sys.path.insert(0, str(pathlib.Path(__file__).resolve().parent.parent / "checks" / "model"))

from machine import Machine  # noqa: E402
from session import Session as Model  # noqa: E402

CACHE, TABLE, SESSION, BUFFER, ENTRY, HEAD, NEXT = range(7)  # registers of mutator 0
REQUESTS = 100
CHAINS = 8
OPENING = """class server/Cache - chains:object size:int
array [server/Entry;
class server/Entry - key:int session:object next:object
class server/Session - user:int state:byte buffer:object
new 0 0 0
newarray 0 1 1 8
store 0 0 0 1"""


class Server:
    """The server: the lines that it said, and the keys in each chain, the newest first."""

    def __init__(self):
        self.model = Model(Machine())
        self.lines = []
        self.chains = [[] for _ in range(CHAINS)]
        for line in OPENING.split("\n"):
            self.say(line)

    def say(self, *words):
        """Says a line, which must be accepted."""
        line = " ".join(map(str, words))
        answer = self.model.answer(line.encode())
        assert answer.startswith(b"ok"), (line, answer)
        self.lines.append(line)

    def count(self):
        """Writes the cache's size."""
        self.say("put", 0, CACHE, 1, sum(map(len, self.chains)))

    def begin(self, key):
        """Makes a session and enters it."""
        self.say("new", 0, SESSION, 3)
        self.say("put", 0, SESSION, 0, 1000 + key)
        self.say("newprim", 0, BUFFER, "byte", 48)
        self.say("store", 0, SESSION, 2, BUFFER)
        self.say("new", 0, ENTRY, 2)
        self.say("put", 0, ENTRY, 0, key)
        self.say("store", 0, ENTRY, 1, SESSION)
        self.say("load", 0, HEAD, TABLE, key % CHAINS)
        self.say("store", 0, ENTRY, 2, HEAD)
        self.say("store", 0, TABLE, key % CHAINS, ENTRY)
        self.chains[key % CHAINS].insert(0, key)
        self.count()

    def end(self, key):
        """Closes the session, and unlinks its entry unless the request timed out."""
        self.say("put", 0, SESSION, 1, 2)
        if key < 20 or key % 5:
            self.say("load", 0, NEXT, ENTRY, 2)
            self.say("store", 0, TABLE, key % CHAINS, NEXT)
            self.chains[key % CHAINS].remove(key)
            self.count()
        for register in (SESSION, BUFFER, ENTRY, HEAD, NEXT):
            self.say("clear", 0, register)

    def collect(self):
        """Runs a whole cycle."""
        machine = self.model.machine
        self.say("snap")
        while machine.state.gray:
            self.say("mark")
        self.say("finish")
        for number, region in enumerate(machine.state.regions):
            if region:
                self.say("sweep", number)


def main():
    server = Server()
    for key in range(REQUESTS):
        server.begin(key)
        server.end(key)
        if key % 40 == 39:
            server.collect()
    print("\n".join(server.lines))


if __name__ == "__main__":
    main()
