#!/usr/bin/env python3
"""Has clients work on one served heap: `soak.py [PROGRAM ..]`, `CLIENTS` of them (8) for `SECONDS` seconds (600), `ACTS` acts in all
(500,000).

PROGRAM is `bin/heapdbg` if it isn't given; words before its name are a command that runs it, such as `valgrind -q`. The
clients send lines of every kind at random, questions and `collect` too, forty at a time, and open two pins on one place,
dump both and close them.
The program has its two workers, which mark and sweep the cycles that clients begin, and `DUMPERS` more clients (2) fetch dumps
from its second port, one after another. Prints a line for each reply that is not well formed, for a dump that can't be read or
whose references name no object of it, for two whole dumps of one place that differ, and for a session that ended otherwise than
by `end`; then how much was done, and the memory of the program after the first minute and at the end, with the acts done by
then, but for `QUIET=1`. Status 1 if anything was wrong. A fetched dump may be empty or cut: the clients' pins may be all that can be open, and
their rewinds lose others' pins.

The clients pause between these so that their acts last as long as they work. A heap that is served takes 1,000,000 acts in all,
those of its workers included; for more than 500,000 acts of clients it drops old ones (`--roll 1`).
No reply says at which turn it was given, so whether they fit one history can't be seen here: `audit.py` looks at that."""
import contextlib
import os
import pathlib
import random
import re
import socket
import sys
import threading
import time

import segments
from servers import DumpServer, memory_of

TOP = pathlib.Path(__file__).resolve().parent.parent
sys.path.append(str(TOP / "clients/python"))

from heapdbg import Ended, Refused, Session  # noqa: E402

CLIENTS = int(os.environ.get("CLIENTS") or 8)
DUMPERS = int(os.environ.get("DUMPERS") or 2)
MUTATORS = 4
# How many seconds a reply, or the program's end, may take.
LIMIT = 300
# How many acts clients may do together beside workers if the heap drops none, and how many they may do.
SAFE_ACTS = 500_000
ACTS = int(os.environ.get("ACTS") or SAFE_ACTS)
# How many lines a client sends at once, and whether nothing is printed but what is wrong.
TOGETHER = 40
QUIET = os.environ.get("QUIET") == "1"
# The last record of a dump.
END = b"\x2c" + bytes(8)
NUMBER = r"(0|[1-9][0-9]*)"
ID = r"0x[0-9a-f]{8}"
FACTS = {18: f" {NUMBER} {NUMBER}", 19: f" {NUMBER}", 20: f" {NUMBER}", 21: f" {NUMBER} {NUMBER}", 23: " (Rewound|Memory)",
    29: f" {NUMBER} {NUMBER}"}
NAMED = r"[^ ]+"
NAMES = """NoMemory NoClass ClassLimit BadName DuplicateName FieldLimit BadRegister NullRegister BadSlot WrongKind OutOfRange TooLarge HeapFull
AlreadyMarking NotMarking NothingToMark NothingToDrain NotDone SweepPending NothingToSweep TooFar NoPin Lost NotRetained PinLimit
ChronicleFull Unreachable NoObject NothingToRedo NameLimit""".split()
REFUSED = "|".join(f"no {number} {name}{FACTS.get(number, '')}" for number, name in enumerate(NAMES, 1))
# What a line may be answered if it is not refused, by its first word.
ANSWERS = {
    "class": f"ok class {NUMBER}", "array": f"ok class {NUMBER}", "new": f"ok object {ID}", "newarray": f"ok object {ID}",
    "newprim": f"ok object {ID}", "load": f"ok (object {ID}|null|value {NUMBER})", "store": "ok", "put": "ok", "move": "ok", "clear": "ok",
    "snap": f"ok pushed {NUMBER}", "mark": f"ok pushed {NUMBER}", "drain": "ok pushed [01]", "finish": f"ok condemned {NUMBER}",
    "sweep": f"ok swept {NUMBER}( empty)?", "rewind": f"ok place {NUMBER}", "open": f"ok pin {NUMBER} at {NUMBER}",
    "dump": f"ok dump {NUMBER}", "piece": f"ok (piece|last) {NUMBER}", "close": "ok", "what": "bad command",
    "histogram": f"ok {NUMBER} {NUMBER}", "garbage": f"ok {NUMBER} {NUMBER}", "registers": f"ok {NUMBER}", "path": f"ok {NUMBER}", "paths": f"ok {NUMBER}",
    "history": f"ok {NUMBER}", "pins": f"ok {NUMBER}", "objects": f"ok {NUMBER}", "cells": f"ok {NUMBER}", "status": "ok 8",
    "dominators": f"ok {NUMBER}", "dominator": f"ok {NUMBER}", "show": f"ok object {NAMED} {NUMBER}( marked)?",
    "regions": f"ok {NUMBER}", "cycles": f"ok {NUMBER}", "life": f"ok {NUMBER}", "kept": f"ok {NUMBER} {NUMBER}", "diff": f"ok {NUMBER}",
    "retained": f"ok {NUMBER} {NUMBER}", "watch": f"ok {NUMBER}", "writes": f"ok {NUMBER}", "when": f"ok (place {NUMBER}|never)", "values": f"ok {NUMBER}",
    "collect": f"ok condemned {NUMBER} swept {NUMBER}", "forward": f"no 29 NothingToRedo {NUMBER} 0|no 24 NotRetained",
    "at": f"ok place {NUMBER}|bad command", "name": f"ok place {NUMBER}",
}
# A row of the answer to a question, by its first word.
ROWS = {
    "histogram": f"{NUMBER} {NUMBER} {NAMED}", "garbage": f"{NUMBER} {NUMBER} {NAMED}", "registers": f"[0-3] [0-7] (null|{ID} {NAMED})",
    "objects": f"{ID} {NAMED} {NUMBER}( unreached)?", "cells": f"{NUMBER} (4|16|64|256|1024) (-|sweep) [.omgx]+",
    "life": f"{NAMED} ({NUMBER}|older) (-|{NUMBER}|older) (-|{NUMBER})", "cycles": f"{NUMBER} {NUMBER} {NUMBER}", "regions": f"{NUMBER} (4|16|64|256|1024) {NUMBER} {NUMBER} {NUMBER} (-|waits)",
    "status": f"(phase (idle|marking)|(place|retained|gray|undrained|unswept|regions|acts) {NUMBER})",
    "dominators": f"{ID} {NUMBER} {NUMBER} {NAMED}", "dominator": f"{ID} {NAMED}", "show": f"({NUMBER} )?{NUMBER} {NAMED} [a-z]+ ({NUMBER}|null|{ID}( {NAMED})?)",
    "retained": f"{NUMBER} {NUMBER} {NAMED}", "kept": f"{NUMBER} {NUMBER} {NAMED}", "watch": f"{NUMBER} ({NUMBER} {NUMBER}|(null|{ID}) (null|{ID}))",
    "writes": f"{NUMBER} {ID} ({NUMBER} {NUMBER}|(null|{ID}) (null|{ID}))",
    "diff": f"{ID} (made|gone|{NUMBER} ({NUMBER} {NUMBER}|(null|{ID}) (null|{ID})))",
    "values": f"({NUMBER}|null|{ID}) {NUMBER}",
    "path": f"([0-3] [0-7] {ID}|{ID} {NUMBER} {ID})", "paths": f"([0-3] [0-7] {ID}|{ID} {NUMBER} {ID})", "history": f"{NUMBER} [a-z]+.*", "pins": f"{NUMBER} {NUMBER} (held {NUMBER}|lost Rewound)",
}
# What standard error may tell of dumps.
TOLD = re.compile(rb"(heapdbg: dump (PinLimit|Rewound)( \(\d+ times\))?\n)*(heapdbg: nothing is told of further dumps\n)?")
PATTERNS = {word: re.compile(f"({answer})|{REFUSED}") for word, answer in ANSWERS.items()}
# A line that names a field. It is a bad command, too, if the register names no object with such a field.
BY_NAME = re.compile("(load [0-9]+ [0-9]+ [0-9]+|put [0-9]+ [0-9]+) [a-z]+( [0-9]+)?")
DATA = re.compile("data ([0-9a-f]{2}){1,64}")
BEFORE = {"dump": DATA, "piece": DATA} | {word: re.compile(f"row {row}") for word, row in ROWS.items()}
# What adds nothing to the chronicle, by its first word; and how many entries `collect` adds, about.
NO_ACTS = {"open", "dump", "piece", "close", "what", "when", "forward", "at", "name", *ROWS}
COLLECTED = 300


def line_by_lot(lot):
    """Returns a line of any kind but those on pins."""
    mutator, register, slot = lot.randrange(MUTATORS), lot.randrange(9), lot.randrange(5)
    other = lot.randrange(8)
    lines = (
        (1, f"class Class{lot.randrange(400)} - next:object left:object count:int wide:long"),
        (1, f"array Array{lot.randrange(100)}"),
        (12, f"new {mutator} {register} {lot.randrange(3)}"),
        (4, f"newarray {mutator} {register} {lot.randrange(3)} {lot.randrange(9)}"),
        (4, f"newprim {mutator} {register} {lot.choice(['int', 'long', 'object', 'byte'])} {lot.randrange(40)}"),
        (12, f"load {mutator} {register} {other} {slot}"),
        (1, f"load {mutator} {register} {other} next"), (1, f"put {mutator} {register} {lot.choice(['count', 'wide'])} {lot.randrange(99)}"),
        (15, f"store {mutator} {register} {lot.randrange(2)} {other}"),
        (15, f"put {mutator} {register} {lot.randrange(2, 4)} {lot.randrange(1 << 33)}"),
        (6, f"move {mutator} {register} {lot.randrange(MUTATORS)} {other}"),
        (6, f"clear {mutator} {register}"),
        (3, "snap"), (12, "mark"), (8, "drain"), (3, "finish"), (6, f"sweep {lot.randrange(16)}"),
        (1, f"rewind {lot.randrange(1, 30) if lot.randrange(4) == 0 else 2000}"),
        (1, "what is this"), (0.1, "collect"), (0.3, f"forward {lot.choice(['1', '@'])}{lot.randrange(30)}"), (1, "histogram -"), (1, "garbage -"), (1, f"kept @{lot.randrange(3000)}"), (1, "registers -"), (1, "pins"),
        (0.3, f"at {lot.choice(['-', f'@{lot.randrange(3000)}', f'@n{lot.randrange(300)}'])}"), (0.3, f"name n{lot.randrange(300)}"),
        (1, f"objects{lot.choice(['', ' -'])}"), (1, "cells"), (1, f"regions{lot.choice(['', ' -', f' @{lot.randrange(3000)}'])}"), (1, "cycles"), (1, "status"),
        (1, f"path - 0x{0x10000000 + lot.randrange(1 << 12) * 8:08x}"),
        (1, f"paths {lot.choice(['', '- '])}0x{0x10000000 + lot.randrange(1 << 8) * 32:08x} {lot.choice([1, 4])}"),
        (1, f"retained {lot.choice(['', '- '])}0x{0x10000000 + lot.randrange(1 << 12) * 8:08x}"),
        (1, f"dominators {lot.choice(['', '-', '5', '- 5'])}"),
        (1, f"dominators 0x{0x10000000 + lot.randrange(1 << 8) * 32:08x}{lot.choice(['', ' 5'])}"),
        (0.3, f"diff @{lot.randrange(3000)}{lot.choice(['', ' -', f' @{lot.randrange(3000)}'])}"),
        (1, f"dominator {lot.choice(['', '- '])}0x{0x10000000 + lot.randrange(1 << 12) * 8:08x}"),
        (1, f"watch 0x{0x10000000 + lot.randrange(1 << 8) * 32:08x} {slot}{lot.choice(['', f' @{lot.randrange(3000)}'])}"),
        (0.3, f"writes {lot.randrange(3)} {slot}{lot.choice(['', f' @{lot.randrange(3000)}', f' @{lot.randrange(3000)} -'])}"),
        (0.3, f"when{lot.choice(['', f' @{lot.randrange(3000)}', f' @{lot.randrange(3000)} -'])} {lot.randrange(3)} {slot} {lot.choice(['0', 'null', '7'])}"),
        (1, f"values {lot.choice(['', '- '])}{lot.randrange(3)} {slot}"),
        (1, f"show {lot.choice(['', '- '])}0x{0x10000000 + lot.randrange(1 << 8) * 32:08x}{lot.choice(['', '.next', '.next.left', '.0'])}{lot.choice(['', ' 1 2', ' 9 9', ' 1', ' 3'])}"),
        (1, f"history {lot.randrange(30)}"),
        (0.3, f"life 0x{0x10000000 + lot.randrange(1 << 8) * 32:08x}"),
    )
    return lot.choices([text for _, text in lines], [weight for weight, _ in lines])[0]


class Client(Session):
    """A session that works at random, with what it saw. It looks at each reply as it came."""

    def __init__(self, *streams):
        super().__init__(*streams)
        self.lines = self.acts = self.dumps = self.pairs = self.lost = self.bytes = 0
        self.wrong = []

    def reply(self, line, came):
        """Returns a reply, once it has looked at it."""
        data, got = super().reply(line, came)
        word = line.split()[0]
        is_answer = PATTERNS[word].fullmatch(got) or got == "bad command" and BY_NAME.fullmatch(line)
        if not is_answer or data and not (word in BEFORE and all(map(BEFORE[word].fullmatch, data))):
            self.wrong.append(f"{line!r} was answered {got!r} after {len(data)} lines, first {data[:1]!r}")
        text = b"" if word in ROWS else bytes.fromhex("".join(each[5:] for each in data))
        if got.startswith("ok dump "):
            self.look_at(line, got, text)
        self.lines += 1
        self.acts += COLLECTED if word == "collect" else word not in NO_ACTS
        self.bytes += len(text)
        return data, got

    def look_at(self, line, got, text):
        """Looks at a whole dump."""
        self.dumps += 1
        fault = segments.fault_of(text)
        if fault or got != f"ok dump {len(text)}":
            self.wrong.append(f"{line!r} was answered {got!r} after {len(text)} bytes: {fault}")

    def send_lines(self, lot):
        """Sends some lines at once, and reads their replies."""
        with self.batch() as batch:
            for _ in range(TOGETHER):
                batch.send(line_by_lot(lot), lambda words, lines: None)

    def pair(self, lot):
        """Dumps the present place under two pins. The first dump comes last, so that its place was there when the second was opened."""
        first, place = self.open()
        with contextlib.suppress(Refused):
            second, _ = self.open(place)
            self.send_lines(lot)
            try:
                is_same = self.dump(second) == self.dump(first)
                self.pairs += 1
                if not is_same:
                    self.wrong.append(f"two dumps of place {place} differ")
            except Refused:
                self.lost += 1
            self.close(second)
        self.close(first)

    def works(self, number, seconds):
        """Works for some seconds, and ends its session."""
        lot = random.Random(number)
        start = time.monotonic()
        try:
            while (now := time.monotonic() - start) < seconds:
                with contextlib.suppress(Refused):
                    if lot.randrange(10) == 0:
                        self.pair(lot)
                    elif lot.randrange(20) == 0:
                        self.dump()
                    else:
                        self.send_lines(lot)
                ahead = self.lines * CLIENTS / ACTS * seconds - now
                if ahead > 0:
                    time.sleep(min(ahead, 3))
            self.write("end\n")
            if self.reader.read():
                self.wrong.append("something came after the line end")
        except (Ended, OSError, ValueError, IndexError) as error:
            self.wrong.append(f"the session broke off: {error!r}")
        self.stop()


class Dumper:
    """A client of the second port, with what it saw."""

    def __init__(self, port):
        self.port = port
        self.whole = self.cut = self.empty = 0
        self.wrong = []

    def fetches(self, seconds):
        """Fetches dumps for some seconds."""
        end = time.monotonic() + seconds
        while time.monotonic() < end:
            with contextlib.suppress(ConnectionResetError), socket.create_connection(("127.0.0.1", self.port), LIMIT) as client:
                text = b"".join(iter(lambda: client.recv(1 << 16), b""))
                self.look_at(text)

    def look_at(self, text):
        """Looks at what came until the end of the connection."""
        if not text:
            self.empty += 1
            time.sleep(0.05)
        elif text.endswith(END):
            self.whole += 1
            if fault := segments.fault_of(text):
                self.wrong.append(f"a fetched dump of {len(text)} bytes: {fault}")
        else:
            self.cut += 1


def total(clients, name):
    """Returns a sum over all clients."""
    return sum(getattr(client, name) for client in clients)


def worked(child, clients, dumpers, seconds):
    """Has all clients work. Returns when the memory of the program was looked at, how many KiB it was and after how many acts."""
    threads = [threading.Thread(target=client.works, args=(number, seconds)) for number, client in enumerate(clients)]
    threads += [threading.Thread(target=dumper.fetches, args=(seconds - 1,)) for dumper in dumpers]
    for thread in threads:
        thread.start()
    first = min(60, seconds / 2)
    time.sleep(first)
    early = (first, (memory_of(child) or 0) // 1024, total(clients, "acts"))
    time.sleep(max(0, seconds - first - 0.5))
    late = (seconds, (memory_of(child) or 0) // 1024, total(clients, "acts"))
    for thread in threads:
        thread.join()
    return early, late


def main(program, seconds):
    """Returns the exit status."""
    options = ["--mutators", str(MUTATORS), "--workers", "1", "--questions", "1", "--roll", str(int(ACTS > SAFE_ACTS))]
    with DumpServer(program, CLIENTS, *options) as server:
        server.waits()
        clients = [Client.connect(server.port, timeout=LIMIT) for _ in range(CLIENTS)]
        dumpers = [Dumper(server.dumps) for _ in range(DUMPERS)]
        looks = worked(server.run, clients, dumpers, seconds)
        status, words, error = server.ended(LIMIT)
    wrong = [text for client in (*clients, *dumpers) for text in client.wrong]
    if (status, words) != (0, ["quit"] * CLIENTS) or not TOLD.fullmatch(error):
        wrong.append(f"the program ended with {status}, {words} and {error!r}")
    for text in wrong[:50]:
        print(text)
    if not QUIET:
        account(clients, dumpers, looks)
    return 1 if wrong else 0


def account(clients, dumpers, looks):
    """Prints how much was done, and the memory of the program."""
    done = [total(clients, name) for name in ("lines", "dumps", "pairs", "lost", "bytes")]
    print("{} lines, {} whole dumps, {} pairs of equal dumps, {} pairs with a lost pin, {} bytes of dumps".format(*done))
    fetched = [total(dumpers, name) for name in ("whole", "cut", "empty")]
    print("{} dumps fetched whole, {} cut, {} empty".format(*fetched))
    print("memory: " + ", ".join("{1} KiB after {0:.0f} s and {2} acts".format(*look) for look in looks))


if __name__ == "__main__":
    PROGRAM = sys.argv[1:] or [os.path.join(TOP, "bin/heapdbg")]
    sys.exit(main(PROGRAM, float(os.environ.get("SECONDS") or 600)))
