"""Heaps of many objects, the same every time, and what each question about them may cost."""
import contextlib
import os
import random
import re
import subprocess
import threading
import time

from servers import memory_of

# The most elements of a table, and how many lines and bytes are written and read at a time.
TABLE, LINES, READ = 2_097_147, 5_000, 1 << 20
# The bytes of an answer's end that are looked at.
END = 4_000
NODES_OF_A_REGION, WORDS_OF_A_REGION = 256, 1_024
CLASSES = b"class Node - a:object b:object c:object key:int\narray [Node;\nclass Leaf - key:int\n"
# The rounds of eight steps that end a session, all of whose steps are retained. Each makes a leaf, which the next one drops.
ROUNDS = 8_192
KEEP = 8 * ROUNDS
# As many paths begin at an array beside the nodes, whose elements name the first of them.
STARTS = 256
ROUND = b"new 0 1 2\nput 0 1 0 %d\nput 0 0 3 %d\nstore 0 0 2 1\nload 0 2 0 0\nload 0 3 2 1\nput 0 2 3 %d\nmove 0 4 0 2\n"
LAST = re.compile(rb"(?m)^(?:ok|no|bad)[^\n]*\n\Z")


def list_links(count, _):
    """Yields (node, slot, node) for each link of a list."""
    return ((number, 0, number + 1) for number in range(count - 1))


def tree_links(count, _):
    """Yields the same for a binary tree."""
    return (((number - 1) // 2, (number - 1) % 2, number) for number in range(1, count))


def random_links(count, lots):
    """Yields the same for three links from each node to nodes at random."""
    return ((number, slot, int(lots.random() * count)) for number in range(count) for slot in range(3))


def mixed_links(count, lots):
    """Yields the same for a list whose first node leads to a tree, whose first one leads to nodes with links at random."""
    third = count // 3
    yield 0, 1, third
    yield third, 2, 2 * third
    for number, links in enumerate((list_links, tree_links, random_links)):
        for node, slot, other in links(third, lots):
            yield number * third + node, slot, number * third + other


# The questions: about a state; about the steps to a place; and others. Near and far are nodes that the root leads to, and the leaf was
# dropped in the middle of the retained steps, in which no node's slot b was written.
ABOUT_STATES = (
    *("histogram", "garbage", "registers", "classes", "objects", "objects Node", "objects Node key 7", "values Node key", "values Node a"),
    *("path {near}", "path {far}", "paths {far} 1", "paths {far} {starts}", "referrers {root}", "referrers {far}", "retained {root}", "retained {far}"),
    *("dominators", "dominators 10", "dominators {root} 10", "dominator {near}", "dominator {far}"),
    *("show {root}", "show {root} 8", "show {root}.a.a.a 3", "history 65536"),
)
ABOUT_PLACES = ("born {root}", "wrote {root} b", "dropped {root}")
OTHERS = (
    *("growth {old} -", "kept {old} -", "diff {old} -", "growth - {old}", "kept - {old}", "diff - {old}", "born {leaf}", "dropped {leaf}"),
    *("watch {root} c", "watch {root} b", "writes Node c", "writes Node b", "writes Leaf key {old} -", "life {leaf}", "life {root}"),
    *("when Node key 8191", "when Leaf key 9999", "when Node b null", "when count Node 9999999", "when count Leaf 8192"),
    *("cycles", "pins", "cells", "regions", "status", "help", "help path", "name here", "at {old}", "histogram", "at -"),
    *("open {old}", "histogram 1", "path 1 {far}", "dominators 1 10", "close 1", "write now.hprof", "write {old} then.hprof", "draw now.svg"),
    *("rewind {old}", "forward {steps}", "collect"),
)

# The seconds that a question about 65,000 objects and 65,536 steps may take.
SECONDS, SECONDS_OF_ALL_DOMINATORS = 0.05, 0.1

SHAPES = {"list": list_links, "tree": tree_links, "random": random_links, "mixed": mixed_links}
# What part of the nodes the first one leads to.
REACHED = {"list": 1, "tree": 1, "random": 0.9405, "mixed": 0.98}


def most_of(line):
    """Returns the seconds that a question about 65,000 objects may take."""
    return SECONDS_OF_ALL_DOMINATORS if line.startswith("dominator") else SECONDS


def in_table(number):
    """Returns the register that names the table of a node, and the node's element there."""
    table, element = divmod(number, TABLE)
    return 7 - table, element


def node_lines(count):
    """Yields lines that make nodes, each with its number."""
    for table in range(-(-count // TABLE)):
        yield b"newarray 0 %d 1 %d\n" % (7 - table, min(TABLE, count - table * TABLE))
    for number in range(count):
        yield b"new 0 0 0\nput 0 0 3 %d\nstore 0 %d %d 0\n" % (number, *in_table(number))


def link_lines(links):
    """Yields lines that link nodes."""
    last = None
    for node, slot, other in links:
        if node != last:
            yield b"load 0 0 %d %d\n" % in_table(node)
            last = node
        yield b"load 0 1 %d %d\nstore 0 0 %d 1\n" % (*in_table(other), slot)


def heap_lines(shape, count):
    """Yields lines that make a heap of what the first of some nodes leads to, of an array and of leaves that are lost."""
    yield CLASSES
    yield from node_lines(count)
    yield from link_lines(SHAPES[shape](count, random.Random(1)))
    yield b"load 0 0 7 0\nmove 1 0 0 0\nnewarray 1 1 1 %d\n" % STARTS
    yield from (b"store 1 1 %d 0\n" % start for start in range(STARTS))
    yield b"clear 1 0\n"
    yield from (b"clear 0 %d\n" % register for register in range(1, 8))
    yield b"collect\n"
    yield from (ROUND % (number, number, number) for number in range(ROUNDS))


def give(path, lines):
    """Writes lines to a pipe, as long as somebody reads."""
    with contextlib.suppress(BrokenPipeError), open(path, "wb") as pipe:
        part = []
        for line in lines:
            part.append(line)
            if len(part) == LINES:
                pipe.write(b"".join(part))
                part.clear()
        pipe.write(b"".join(part))


class LargeHeap:
    """A session of `explore` over a heap of a number of objects: leaves and nodes, which tables of references held until they were
    linked. It is killed after `limit` seconds, if these are given."""

    def __init__(self, program, shape, objects, folder, limit=None):
        count = round((objects - ROUNDS) / REACHED[shape])
        area = -(-count // TABLE) + count // WORDS_OF_A_REGION + 1
        regions = area + (count + ROUNDS) // NODES_OF_A_REGION + 2
        lines = os.path.join(folder, "lines")
        os.mkfifo(lines)
        threading.Thread(target=give, args=(lines, heap_lines(shape, count)), daemon=True).start()
        words = ["--wide", "1", "--regions", str(regions), "--area", str(area), "--keep", str(KEEP), "--from", lines]
        pipes = {"stdin": subprocess.PIPE, "stdout": subprocess.PIPE, "stderr": subprocess.DEVNULL}
        self.ran = subprocess.Popen([program, "explore", *words], bufsize=0, cwd=folder, **pipes)
        self.timer = threading.Timer(limit or 0, self.ran.kill)
        self.timer.daemon = True
        if limit:
            self.timer.start()
        rows = dict(row.split()[1:] for row in self.ask("status")[0][:-1])
        self.facts = {
            "old": f"@{int(rows['place']) - int(rows['retained'])}",
            "steps": rows["retained"],
            "objects": self.ask("histogram")[0][-1].split()[1],
            "root": self.ask("registers")[0][0].split()[3],
            "leaf": self.object_with(f"Leaf key {ROUNDS // 2}"),
            "near": self.node_below(count // 3),
            "far": self.node_below(count),
            # Of all these paths along a list the answer would be too long.
            "starts": 1 if shape == "list" else STARTS,
        }

    def seconds(self):
        """Returns the processor's time that the program has taken so far, that of the kernel for it included."""
        return time.clock_gettime(~self.ran.pid << 3 | 2)

    def ask(self, line):
        """Asks a question. Returns the last lines of its answer, how many bytes that has, and the processor's time that it took."""
        begun = self.seconds()
        with contextlib.suppress(BrokenPipeError):
            self.ran.stdin.write(line.encode() + b"\n")
        size, end = 0, b""
        while not LAST.search(end):
            part = self.ran.stdout.read(READ)
            if not part:
                raise SystemExit(f"{line}: no answer came")
            size, end = size + len(part), (end + part)[-END:]
        return end.decode().splitlines(), size, self.seconds() - begun

    def unasked(self):
        """Returns the keywords that `help` lists behind those of `run`, except for those of lines that run or log others, and that no
        line asks."""
        listed = [row.split()[1] for row in self.ask("help")[0][:-1]]
        asked = {name.split()[0] for name, _ in self.lines()}
        return [word for word in listed[listed.index("end") + 1 :] if word not in asked and word not in ("source", "log")]

    def object_with(self, words):
        """Returns the id of the object of a class that has a value, or None."""
        rows = self.ask(f"objects {words}")[0][:-1]
        return rows[0].split()[1] if rows else None

    def node_below(self, number):
        """Returns the id of the node with the largest number below this one that is there."""
        return next(name for key in range(number - 1, 0, -1) if (name := self.object_with(f"Node key {key}")))

    def lines(self):
        """Yields lines to ask, by names that are the same in each heap: each once about the current state, and once about the oldest one
        where it may be about both."""
        for line in ABOUT_STATES + ABOUT_PLACES:
            word, *rest = line.split()
            for about in ("", "{old}"):
                yield self.named(" ".join([word, *[about] * (about != ""), *rest]))
        yield from map(self.named, OTHERS)

    def named(self, line):
        """Returns a line without its braces, and the line with what they stand for."""
        return re.sub("[{}]", "", line), line.format(**self.facts)

    def close(self):
        """Ends the session. Returns the megabytes that the program took at most."""
        most = memory_of(self.ran, "VmHWM")
        self.timer.cancel()
        self.ran.stdin.close()
        self.ran.wait()
        return most >> 20
