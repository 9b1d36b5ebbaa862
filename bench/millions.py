#!/usr/bin/env python3
"""Hunts in a heap of five million objects: `millions.py [PROGRAM [CHAINS]]`.

PROGRAM is `bin/heapdbg` if it isn't given. Writes a session of a wide heap that makes CHAINS lists (1,000 if it isn't given) of
5,000 nodes, whose heads stand in a table that a register names; of each fifth list the head is dropped at once. Saves the
session's heap, and reads the file back record by record by what HPROF says, without the program's code: each object, its values
and its reference must be those that the session wrote. Opens that file by `explore --hprof`, if it has no more objects than
that takes (CHAINS up to 838). Then loads the session by `explore --from`, asks what a hunter asks, runs a cycle, asks again,
and rewinds. Prints how long each took, lines of the hunt by the processor's time of the program and others on the clock, and the
memory that the program has taken at most. A line of the hunt that took more than two seconds is marked. Status 1 if a file or an
answer is wrong."""
import mmap
import os
import pathlib
import struct
import subprocess
import sys
import tempfile
import time

TOP = pathlib.Path(__file__).resolve().parent.parent
sys.path.append(str(TOP / "checks"))

from servers import memory_of  # noqa: E402

LENGTH, GAP = 5_000, 5
REGIONS, KEEP = 20_000, 1 << 24
# The seconds that a line of the hunt should take at most.
LONGEST = 2
# The objects of a dump of which `explore --hprof` makes a heap.
MOST_OF_A_DUMP = 4_194_304
OPENING = b"class Node - next:object key:int\narray [Node;\nnewarray 0 0 1 %d\n"
# Steps before the first node, and how many make a node and end a list.
FIRST, EACH, LAST = 3, 4, 1


def is_kept(chain):
    """Tells whether the head of a list stands in the table."""
    return chain % GAP != GAP - 1


def write_session(path, chains):
    """Writes the session. The key of a node is its number among all."""
    with open(path, "wb") as file:
        file.write(OPENING % chains)
        for chain in range(chains):
            first = chain * LENGTH
            file.write(b"clear 0 2\n")
            file.write(b"".join(b"new 0 1 0\nput 0 1 1 %d\nstore 0 1 0 2\nmove 0 2 0 1\n" % key for key in range(first, first + LENGTH)))
            if is_kept(chain):
                file.write(b"store 0 0 %d 2\n" % chain)
        file.write(b"clear 0 1\nclear 0 2\n")


def steps(chains):
    """Returns how many steps the session has."""
    return FIRST + chains * (1 + EACH * LENGTH) + sum(map(is_kept, range(chains))) + 2


class Dump:
    """A dump that is read back: the table's elements, and of each node its id, what it refers to and its key, in the file's order."""

    def __init__(self, text):
        self.text = text
        self.sizes, self.nodes, self.tables = {}, [], []
        assert text[:19] == b"JAVA PROFILE 1.0.2\0" and self.number(19, 4) == 8
        at, size = 31, len(text)
        while at < size:
            tag, length = text[at], self.number(at + 5, 4)
            if tag == 0x1C:
                self.read_segment(at + 9, at + 9 + length)
            at += 9 + length
        assert at == size and text[at - 9 : at] == b"\x2c" + bytes(8)

    def number(self, at, size):
        """Returns the number at a byte."""
        return int.from_bytes(self.text[at : at + size], "big")

    def read_segment(self, at, end):
        """Reads the sub-records of a segment."""
        instance = struct.Struct(">QIQI").unpack_from
        node = struct.Struct(">QI").unpack_from
        text = self.text
        while at < end:
            tag = text[at]
            if tag == 0x21:
                name, _, _, size = instance(text, at + 1)
                self.nodes.append((name, *node(text, at + 25)))
                assert size == 12
                at += 25 + size
            else:
                at = self.read_other(tag, at)
        assert at == end

    def read_other(self, tag, at):
        """Reads a sub-record that is no instance. Returns where it ends."""
        if tag in (0x05, 0xFF):
            return at + 9
        if tag == 0x22:
            count = self.number(at + 13, 4)
            self.tables.append(struct.unpack_from(f">{count}Q", self.text, at + 25))
            return at + 25 + 8 * count
        assert tag == 0x20, (hex(tag), at)
        at += 1 + 8 + 4 + 8 * 6 + 4
        assert self.number(at, 4) == 0
        return at + 4 + 2 + 9 * self.number(at + 4, 2)


def faults_of(dump, chains):
    """Yields what is wrong with a dump of the session's heap."""
    if len(dump.tables) != 1 or len(dump.nodes) != chains * LENGTH:
        yield f"{len(dump.tables)} tables and {len(dump.nodes)} nodes"
        return
    ids = [name for name, _, _ in dump.nodes]
    if any(later <= earlier for earlier, later in zip(ids, ids[1:])):
        yield "ids don't rise"
    before = 0
    for key, (name, other, value) in enumerate(dump.nodes):
        before = before if key % LENGTH else 0
        if value != key or other != before:
            yield f"node {key} has the key {value} and names {other:#x} instead of {before:#x}"
            return
        before = name
    heads = tuple(ids[(chain + 1) * LENGTH - 1] if is_kept(chain) else 0 for chain in range(chains))
    if dump.tables[0] != heads:
        yield "the table has other elements"


def saved(program, session, chains):
    """Saves the session's heap and reads the file back. Returns what is wrong, the id of the first node of the first list and of that of the last one that is garbage."""
    path = session.with_name("millions.hprof")
    words = [program, "save", "--wide", "1", "--regions", str(REGIONS), "--out", str(path)]
    begun = time.monotonic()
    with open(session, "rb") as lines:
        done = subprocess.run(words, stdin=lines, stdout=subprocess.PIPE, check=False)
    told(f"save: {path.stat().st_size:,} bytes", begun)
    if done.returncode or not done.stdout.splitlines()[-1].startswith(b"saved "):
        return ["not saved"], 0, 0
    begun = time.monotonic()
    with open(path, "rb") as file, mmap.mmap(file.fileno(), 0, access=mmap.ACCESS_READ) as text:
        dump = Dump(text)
        found = list(faults_of(dump, chains))
    told("read back", begun)
    if chains * LENGTH < MOST_OF_A_DUMP:
        found += opened(program, path, chains * LENGTH)
    path.unlink()
    return found, dump.nodes[0][0], dump.nodes[(chains // GAP * GAP - 1) * LENGTH][0]


def opened(program, path, nodes):
    """Opens a dump, and returns what is wrong with the number of its nodes."""
    hunt = Hunt(program, "--hprof", path)
    counts = hunt.ask("histogram")
    held = hunt.megabytes("VmRSS")
    print(f"memory at most: {hunt.end():,} MB, of which {held:,} once it is open")
    wanted = f"row {nodes} {12 * nodes} Node"
    return [] if wanted in counts else [f"the dump has another histogram than {wanted!r}"]


def told(name, begun):
    """Prints how long something took."""
    print(f"{name}: {time.monotonic() - begun:.2f} s", flush=True)


class Hunt:
    """A session of `explore` after the lines of a file, or of a dump's session."""

    def __init__(self, program, option, path, *words):
        words = [program, "explore", *words, option, str(path)]
        self.ran = subprocess.Popen(words, stdin=subprocess.PIPE, stdout=subprocess.PIPE, stderr=subprocess.DEVNULL)
        self.faults = []
        self.ask("status", 7, f"explore {option}, its lines included")

    def seconds(self):
        """Returns the processor's time that the program has taken so far, that of the kernel for it included."""
        return time.clock_gettime(~self.ran.pid << 3 | 2)

    def ask(self, line, wanted=None, name=None):
        """Asks, and returns the answer's lines; `wanted` is its last line, or the number of its rows. Prints how long it took, by a name
        if there is one."""
        begun = self.seconds()
        self.ran.stdin.write(line.encode() + b"\n")
        self.ran.stdin.flush()
        lines = []
        while not lines or lines[-1].startswith("row "):
            lines.append(self.ran.stdout.readline().decode().rstrip("\n"))
        took = self.seconds() - begun
        print(f"{name or line}: {took:.2f} s" + (f", more than {LONGEST}" if took > LONGEST and not name else ""), flush=True)
        if isinstance(wanted, int):
            wanted = f"ok {wanted}"
        if wanted is not None and lines[-1] != wanted:
            self.faults.append(f"{line!r} was answered {lines[-1]!r} instead of {wanted!r}")
        return lines

    def megabytes(self, name):
        """Returns the memory of the program that the kernel counts by this name."""
        return memory_of(self.ran, name) >> 20

    def end(self):
        """Ends the session, and returns the megabytes that it has taken at most."""
        most = self.megabytes("VmHWM")
        self.ran.stdin.close()
        self.ran.wait()
        return most


def hunted(program, session, chains, reached, lost):
    """Asks what a hunter asks. Returns what is wrong."""
    hunt = Hunt(program, "--from", session, "--wide", "1", "--regions", str(REGIONS), "--keep", str(KEEP))
    kept = sum(map(is_kept, range(chains)))
    nodes, garbage, place = chains * LENGTH, (chains - kept) * LENGTH, steps(chains)
    table = 8 * chains
    past = f"@{place - 100_000}"
    hunt.ask("histogram -", f"ok {nodes + 1} {12 * nodes + table}")
    hunt.ask("garbage -", f"ok {garbage} {12 * garbage}")
    hunt.ask(f"growth {past} -")
    hunt.ask("dominators 2", "ok 1")
    hunt.ask("classes", 2)
    hunt.ask("registers -", 16)
    hunt.ask(f"show - {reached:#010x}", "ok object Node 2")
    hunt.ask(f"path - {reached:#010x}", LENGTH)
    hunt.ask(f"retained {reached:#010x}", "ok 1 12")
    hunt.ask("retained 0x10000000", f"ok {nodes - garbage + 1} {12 * (nodes - garbage) + table}")
    hunt.ask(f"referrers - {reached:#010x}", 1)
    hunt.ask(f"born {lost:#010x}")
    hunt.ask(f"wrote {lost:#010x} 0")
    hunt.ask(f"watch {lost:#010x} key", 1)
    hunt.ask(f"watch 0x10000000 {chains - 2}", 1)
    hunt.ask("writes Node key")
    hunt.ask(f"writes [Node; {chains - 2}", 1)
    hunt.ask(f"when Node key {nodes - 1}")
    hunt.ask(f"objects Node key {nodes - 1}", 1)
    hunt.ask(f"objects {past} Node key {nodes - LENGTH * 8}", 1)
    hunt.ask(f"registers {past}", 16)
    hunt.ask(f"path {past} {reached:#010x}", LENGTH)
    hunt.ask(f"history {past} 20", 20)
    hunt.ask(f"dropped {lost:#010x}")
    hunt.ask("pins", 0)
    hunt.ask("collect", f"ok condemned {garbage} swept {garbage}")
    after = int(hunt.ask("status")[0].split()[-1])
    hunt.ask("garbage -", "ok 0 0")
    hunt.ask("histogram -", f"ok {nodes - garbage + 1} {12 * (nodes - garbage) + table}")
    hunt.ask(f"rewind {after - place}", f"ok place {place}")
    hunt.ask("garbage -", f"ok {garbage} {12 * garbage}")
    print(f"memory at most: {hunt.end():,} MB")
    return hunt.faults


def main(program, chains):
    """Returns the exit status."""
    with tempfile.TemporaryDirectory(prefix="millions-") as folder:
        session = pathlib.Path(folder) / "millions.session"
        write_session(session, chains)
        print(f"{chains * LENGTH:,} objects, {steps(chains):,} steps, {session.stat().st_size:,} bytes of lines")
        wrong, reached, lost = saved(program, session, chains)
        wrong += hunted(program, session, chains, reached, lost)
    for text in wrong:
        print(text)
    return 1 if wrong else 0


if __name__ == "__main__":
    PROGRAM = os.path.abspath(sys.argv[1]) if len(sys.argv) > 1 else os.path.join(TOP, "bin/heapdbg")
    sys.exit(main(PROGRAM, int(sys.argv[2]) if len(sys.argv) > 2 else 1_000))
