#!/usr/bin/env python3
"""Runs the built program once for each of its allocations, which is refused in that run.

Usage: checks/growths.py [-v] PROGRAM
A session ends by `memory` before it reads, or refuses one line and answers all others as a session without that line, or loses
a pin and answers all but its pieces as if it hadn't. A line that was refused is answered as usual when it is given once more,
and so are all lines after it. The same holds beside a page, and for a question instead of a line. Two clients are served at a
time: a session that ends by `memory` has answered nothing, and the other one goes on, also beside workers and dumps, each of
which is whole or a beginning. A save is the dump of the session's last state, or a beginning of it if the dump is lost by
Memory. If it is lost before its first byte, or the session isn't dumped, a file that was there stays as it was, and no file is
made. No session asks for much more memory at once than its settings need, and no rewind asks for any, nor does a sweep that
finds no dead object beside a pin. A pin whose copies get no memory is listed by `pins` as lost, with its place. Prints a line
for each session that misbehaves, and with -v for each how many allocations were refused; ends with status 1 if one
misbehaves."""
import contextlib
import os
import pathlib
import re
import socket
import struct
import subprocess
import sys
import tempfile

from ports import free_port
from servers import DumpServer, Server, connected

ADDRESS = re.compile(rb"heapdbg: page http://\S+\n")
SOURCE = pathlib.Path(__file__).resolve().parent / "refuse.c"
LIMIT = 2000
REFUSED = b"no 1 NoMemory"
LOST = b"no 23 Lost Memory"
# What a file has that a save is to replace.
BEFORE = b"before" * 100

SESSIONS = {
    "sweep_and_reuse_rewound": """class Node - next:object v:long, new 0 0 0, newprim 0 1 long 5, clear 0 0, snap, mark, finish, snap,
        sweep 0, newprim 0 0 long 17, rewind 3""",
    "dump_of_a_past_place": """class Point - x:int y:int, new 0 0 0, put 0 0 0 7, open -, put 0 0 0 9, clear 0 0, snap, finish, sweep 0,
        new 0 0 0, piece 1, dump 1, close 1""",
    "finish_refused_until_ready": """class Node - next:object v:long, new 0 0 0, new 0 1 0, newprim 0 2 long 5, store 0 0 0 1, snap,
        store 0 0 0 0, store 0 0 0 1, mark, mark, mark, finish, drain, drain, finish, sweep 0, snap, mark, mark, mark, finish""",
    "dump_of_object_array": "array [Lq;, newarray 0 0 0 2, store 0 0 1 0, dump -",
    "pins_beside_a_sweep": """class Node - next:object v:long, new 0 0 0, new 0 1 0, clear 0 1, snap, mark, finish, open -, sweep 0,
        put 0 0 1 5, open 3, piece 1, piece 1, piece 1, piece 2, piece 2, piece 2, rewind 2""",
    "save_pumps_the_heap": "class Point - x:int y:int, new 0 0 0, put 0 0 0 7, open -, put 0 0 0 9",
}

# A session with each question that may ask for memory. 0x10000000 leads to the others, and 0x10000040 is lost.
QUESTIONS = """class Node - next:object v:long, array Nodes, new 0 0 0, new 0 1 0, new 0 2 0, newarray 0 3 1 2, store 0 0 0 1, store 0 1 0 3,
    put 0 1 1 7, store 0 3 1 0, clear 0 1, clear 0 2, clear 0 3, put 0 0 1 5, open -, histogram, garbage, growth @3, kept @3, diff @3, path 0x10000020, paths 0x10000020 3,
    retained 0x10000020, dominators, dominators 1, dominators 0x10000000, dominator 0x10000020, referrers 0x10000000, registers, classes, objects,
    objects 1 0 1 7, values 0 1, values 1 1 0, show 0x10000000, show @9 0x10000020, watch 0x10000020 1, writes 0 1, when 0 1 7, dropped 0x10000040,
    history 9, history @9 3, life 0x10000000, cycles, pins, cells, regions, regions @9, status, show 0x10000060 1 1, when count 0 2,
    show 0x10000000.next, show @9 0x10000000.next.next 3, show 0x10000060.1 8, put 0 0 v 6, newarray 0 4 Nodes 2, rewind 2,
    rewind 3, forward 2, forward 9, name here, name there, name here, open @here, at @here, histogram, history 2,
    write now.hprof, write @9 past.hprof, write 1 pin.hprof, draw now.svg, open, growth, class Below Node w:int, class Twig Below, help"""

# A session of a wide heap: as many classes and regions as make each table grow, names longer and pins more than other heaps allow, and a
# cycle beside these pins.
WIDE_REGIONS = "300"
WIDE = [
    *(b"class %s%d - next:object v:long" % (b"<" * 200, number) for number in range(40)),
    *(line for number in range(20) for line in (b"newprim 0 0 long 1024", b"new 0 1 %d" % number, b"store 0 1 0 2", b"move 0 2 0 1")),
    *[b"open -"] * 6,
    *(b"clear 0 1,clear 0 2,snap,put 0 0 7 9,mark,finish,dump 6,sweep 0,sweep 1,sweep 2,sweep 3,close 3".split(b",")),
]

# What the first of two clients sends to a heap with workers, whose answers are the same whatever these do; and the second. In the
# second heap each array fills a region, and a segment of its dump, which goes through the pipe in several batches.
BESIDE_WORKERS = {
    2: (
        [b"class Point - x:int y:int", b"new 0 0 0", b"put 0 0 0 7", b"newprim 0 1 long 3"],
        [b"snap", b"put 0 0 1 8", b"load 0 2 0 1", b"new 0 3 0", b"move 1 0 0 3"],
    ),
    16: ([b"newprim 0 0 long 1024"] * 10, [b"snap", b"put 0 0 1 8"]),
}
# What is said of a dump for which no memory was there.
NO_DUMPS = (b"", b"heapdbg: dump NoMemory\n", b"heapdbg: dump Memory\n")

# What the second of two clients sends.
SECOND = [b"newprim 1 5 byte 3", b"put 1 5 2 9", b"load 1 0 5 2", b"dump -", b"clear 1 5"]


def refusing(folder):
    """Builds the library that refuses an allocation. Returns its path."""
    library = os.path.join(folder, "refuse.so")
    subprocess.run(["cc", "-shared", "-fPIC", "-O1", "-o", library, SOURCE], check=True)
    return library


def run(command, library, number, given=b""):
    """Runs a command, in an empty folder, with the allocation of this number refused. Returns status, standard output and standard
    error, without the address of a page."""
    variables = {"LD_PRELOAD": library, "REFUSED": str(number)}
    with tempfile.TemporaryDirectory() as folder:
        ran = subprocess.run(command, env=variables, capture_output=True, input=given, timeout=60, cwd=folder)
    return ran.returncode, ran.stdout, ADDRESS.sub(b"", ran.stderr)


def replies(out):
    """Returns the replies of an output as (data lines or rows, last line)."""
    found, data = [], []
    for line in out.splitlines():
        if line.startswith((b"data ", b"row ")):
            data.append(line)
        else:
            found.append((data, line))
            data = []
    return found


def words_of(text):
    """Returns the lines of a text that commas separate."""
    return [line.strip().encode() for line in text.replace("\n", " ").split(",")]


def text_of(lines):
    """Returns the text of lines."""
    return b"".join(line + b"\n" for line in lines)


def session(command, library, lines, number=0):
    """Returns status, replies and standard error of a session."""
    status, out, error = run(command, library, number, text_of(lines))
    return status, replies(out), error


def is_refusal(command, library, lines, found):
    """Tells whether just one line was refused, and all others are answered as without it."""
    at = [last for _, last in found].index(REFUSED)
    _, others, _ = session(command, library, lines[:at] + lines[at + 1 :])
    _, sound, _ = session(command, library, lines)
    data = found[at][0]
    return others == found[:at] + found[at + 1 :] and data == sound[at][0][: len(data)]


def is_right(command, library, lines, status, found, error):
    """Tells whether a session in which an allocation was refused went as it may."""
    if error == b"refused\nheapdbg: memory\n":
        return (status, found) == (1, [])
    if (status, error) != (0, b"refused\n") or len(found) != len(lines):
        return False
    if any(last == REFUSED for _, last in found):
        return is_refusal(command, library, lines, found)
    _, sound, _ = session(command, library, lines)
    return all(one == other or one == ([], LOST) for one, other in zip(found, sound))


def size_of(data):
    """Returns how many bytes data lines have."""
    return sum(len(line) - len(b"data ") for line in data) // 2


def is_answered_again(line, once, again, sound):
    """Tells whether a line that was refused once is answered as ever when it is given again. A dump of a pin then goes on where it was
    refused."""
    out = once[0] if line.startswith(b"dump ") and line != b"dump -" else []
    data, last = sound
    rest = data[len(out) :]
    return data[: len(out)] == out and again == (rest, b"ok dump %d" % size_of(rest) if out else last)


def goes_on(command, library, lines, found, given, tries=3):
    """Tells whether the line that was refused, if one was, is answered as ever when it is given again, and so are all after it. `given`
    returns the replies to lines among which it stands twice, and is asked again if the same allocation was another one."""
    lasts = [last for _, last in found]
    if REFUSED not in lasts:
        return True
    at = lasts.index(REFUSED)
    told = given(lines[: at + 1] + lines[at:])
    if tries > 1 and told[: at + 1] != found[: at + 1]:
        return goes_on(command, library, lines, found, given, tries - 1)
    _, sound, _ = session(command, library, lines)
    good = len(told) == len(lines) + 1 and told[: at + 1] == found[: at + 1] and told[at + 2 :] == sound[at + 1 :]
    return good and is_answered_again(lines[at], found[at], told[at + 1], sound[at])


def in_tries(tries, attempt):
    """Returns what an attempt comes to, None or whether all went well, and makes it again if something went wrong. Beside other threads
    a number may name another allocation in each run, so that it takes several tries to call one wrong."""
    return next((went for _ in range(tries) if (went := attempt()) is not False), False)


def went_well(command, library, lines, number):
    """Tells whether a session went as it may after the allocation of this number was refused; None if there was none."""
    status, found, error = session(command, library, lines, number)
    if not error:
        return None
    good = is_right(command, library, lines, status, found, error)
    return good and goes_on(command, library, lines, found, lambda given: session(command, library, given, number)[1])


def wrong_sessions(command, library, lines, tries=1):
    """Yields the numbers of the allocations after whose refusal a session misbehaves, and then how many it makes."""
    for number in range(1, LIMIT):
        went = in_tries(tries, lambda number=number: went_well(command, library, lines, number))
        if went is None:
            return number - 1
        if not went:
            yield number
    return LIMIT


def served(program, library, number, clients, tries=3):
    """Serves clients, with the allocation of this number refused, on another port if one was taken meanwhile. All are connected
    before the first sends its lines, and each of the others sends its own once the one before was answered. Returns status,
    the words of the sessions, what each client was answered, and standard error; no words and no answers if nothing was
    listened to."""
    variables = {"LD_PRELOAD": library, "REFUSED": str(number)}
    with contextlib.ExitStack() as opened, Server(program, len(clients), "--regions", "2", env=variables) as server:
        found = [opened.enter_context(client) for _ in clients if (client := client_of(server, server.port))]
        answers = [replies(answered(client, given)) for client, given in zip(found, clients)]
        status, words, error = server.ended(60)
    if tries > 1 and error.endswith(b"heapdbg: listen\n"):
        return served(program, library, number, clients, tries - 1)
    return status, words, answers, error


def joined(answers):
    """Returns the replies to several clients, in order."""
    return [reply for client in answers for reply in client]


def tended(program, library, number, clients, regions, tries=3):
    """Serves two clients, one after another, with workers and dumps, and the allocation of this number refused. A dump is fetched
    between the two, and another beside the second. Returns status, the words of the sessions, what each client was answered,
    the dumps, and standard error."""
    variables = {"LD_PRELOAD": library, "REFUSED": str(number)}
    options = ["--workers", "1", "--regions", str(regions)]
    answers, fetched = [], []
    with contextlib.ExitStack() as opened, DumpServer(program, 2, *options, env=variables) as server:
        found = [opened.enter_context(client) for _ in clients if (client := client_of(server, server.port))]
        for client, given in zip(found, clients):
            if answers and (dumper := client_of(server, server.dumps)):
                fetched.append(dump_of(dumper))
            dumper = client_of(server, server.dumps) if answers else None
            answers.append(replies(answered(client, given)))
            if dumper:
                fetched.append(dump_of(dumper))
        status, words, error = server.ended(60)
    if tries > 1 and error.endswith(b"heapdbg: listen\n"):
        return tended(program, library, number, clients, regions, tries - 1)
    return status, words, answers, fetched, error


def are_dumps(program, library, lines, regions, found, fetched, error):
    """Tells whether the first dump is that of what the first client left, or a beginning of it if that is said, and the second
    begins as a dump does."""
    kept = [line for line, (_, last) in zip(lines, found) if last != REFUSED]
    _, _, _, whole = saved(program, library, kept, regions=regions)
    first, second = fetched
    said = error.removeprefix(b"refused\n")
    opening = whole[:31]
    return said in NO_DUMPS and (first == whole or said != b"" and whole.startswith(first)) and second[:31] in (b"", opening)


def tended_well(program, library, both, regions, number):
    """Tells whether two sessions beside workers and dumps went as they may after the allocation of this number was refused; None if there
    was none."""
    command = [program, "run", "--regions", str(regions)]
    clients = [text_of(lines) for lines in both]
    status, words, answers, fetched, error = tended(program, library, number, clients, regions)
    if b"refused" not in error:
        return None
    if words == []:
        # It may listen already when a thread is refused, but it accepts nobody.
        return (status, error) == (1, b"refused\nheapdbg: memory\n") and not any(answers) and not any(fetched)
    if "memory" in words:
        at = words.index("memory")
        return (status, answers[at], words[1 - at]) == (0, [], "eof")
    good = words == ["eof", "eof"]
    good = good and is_right(command, library, [*both[0], *both[1]], status, joined(answers), b"refused\n")
    return good and are_dumps(program, library, both[0], regions, answers[0], fetched, error)


def wrong_tended(program, library, both, regions):
    """Yields the numbers of the allocations after whose refusal two sessions beside workers and dumps go otherwise than they may, and
    then how many there are. How many each run makes depends on how its threads meet."""
    for number in range(1, LIMIT):
        went = in_tries(3, lambda number=number: tended_well(program, library, both, regions, number))
        if went is None:
            return number - 1
        if not went:
            yield number
    return LIMIT


def answered(client, given):
    """Sends bytes to a server, and returns what comes until it closes. A session that ends by `memory` reads nothing."""
    found = b""
    with contextlib.suppress(OSError):
        client.sendall(given)
        client.shutdown(socket.SHUT_WR)
        while part := client.recv(65536):
            found += part
    return found


def dump_of(client):
    """Returns what a client of the port for dumps is sent."""
    with client:
        return answered(client, b"")


def client_of(server, port):
    """Returns a connection to a port of a server once it listens, or None if it ends before."""
    with contextlib.suppress(TimeoutError):
        return connected(port, run=server.run)
    return None


def wrong_acts(program, library, lines):
    """Yields the numbers of the allocations after whose refusal a session of a shared heap misbehaves, and then how many it
    makes."""
    command = [program, "run", "--regions", "2"]
    for number in range(1, LIMIT):
        status, words, answers, error = served(program, library, number, [text_of(lines)])
        if not error:
            return number - 1
        found = joined(answers)
        if words == ["memory"]:
            good = (status, found) == (0, [])
        else:
            good = is_right(command, library, lines, status, found, error)
            good = good and goes_on(command, library, lines, found, lambda it: joined(served(program, library, number, [text_of(it)])[2]))
        if not good:
            yield number
    return LIMIT


def wrong_servers(program, library, first, second):
    """Yields the numbers of the allocations after whose refusal two sessions go otherwise than they may, and then how many
    there are."""
    command = [program, "run", "--regions", "2"]
    clients = [text_of(lines) for lines in (first, second)]
    alone = {0: session(command, library, second)[1], 1: session(command, library, first)[1]}
    for number in range(1, LIMIT):
        status, words, answers, error = served(program, library, number, clients)
        if not error:
            return number - 1
        if words == [] and answers == []:
            good = (status, error) == (1, b"refused\nheapdbg: memory\n")
        elif "memory" in words:
            at = words.index("memory")
            good = (status, answers[at], answers[1 - at]) == (0, [], alone[at]) and words[1 - at] == "eof"
        else:
            good = words == ["eof", "eof"] and is_right(command, library, first + second, status, joined(answers), error)
        if not good:
            yield number
    return LIMIT


def saved(program, library, lines, number=0, before=BEFORE, regions=2):
    """Returns status, replies and standard error of a session that is saved, and the bytes of its file, which has these before; None
    if there is none before or none afterwards."""
    with tempfile.TemporaryDirectory() as folder:
        path = os.path.join(folder, "out.hprof")
        if before is not None:
            pathlib.Path(path).write_bytes(before)
        command = [program, "save", "--out", path, "--regions", str(regions)]
        status, found, error = session(command, library, lines, number)
        return status, found, error, pathlib.Path(path).read_bytes() if os.path.exists(path) else None


def is_saved(program, library, lines, found, dump):
    """Tells whether the file has the dump of the session's last state, without the line that was refused, if one was."""
    lasts = [last for _, last in found]
    kept = [line for line, last in zip(lines, lasts) if last != REFUSED]
    _, _, _, whole = saved(program, library, kept)
    if lasts[-1] == b"lost Memory 0":
        return dump == BEFORE
    if lasts[-1].startswith(b"lost Memory"):
        return whole.startswith(dump) and lasts[-1] == b"lost Memory %d" % len(dump)
    return dump == whole and lasts[-1] == b"saved %d" % len(dump)


def wrong_saves(program, library, lines):
    """Yields the numbers of the allocations after whose refusal a session that is saved misbehaves, and then how many it makes."""
    for number in range(1, LIMIT):
        status, found, error, dump = saved(program, library, lines, number)
        if not error:
            return number - 1
        if error == b"refused\nheapdbg: memory\n":
            good = (status, found, dump) == (1, [], BEFORE)
        else:
            lost = found != [] and found[-1][1].startswith(b"lost")
            said = (1, b"refused\nheapdbg: lost\n") if lost else (0, b"refused\n")
            command = [program, "run", "--regions", "2"]
            good = (status, error) == said and is_saved(program, library, lines, found, dump)
            good = good and is_right(command, library, lines, 0, found[:-1], b"refused\n")
        if dump == BEFORE:
            good = good and saved(program, library, lines, number, None) == (status, found, error, None)
        if not good:
            yield number
    return LIMIT


# ---- how much is asked for

# The most bytes that a session asks for at once, by what the documents say, and by how much a request may be larger. What comes is
# read by up to 65,536 bytes, also what is read ahead of a served session, to know its first line; a line of 32,768 bytes has at
# most 8,192 fields, and where one stands takes 6 bytes; parts of a saved dump are joined to 64 KiB; an undo record takes at most 32
# bytes, and their ring has room for up to 64 more than are kept; a step that can be taken again takes at most 72 bytes where
# questions may be answered, as in `save`; the parser of the command line is made up to three times, and asks each time for a list
# of the options of `explore` and one of those of `serve`, each with room for 32 of 608 bytes. Nothing else is larger than a
# region's box, which has 1,024 words and room for 256 headers of 8 bytes: not a part of a dump of these heaps, a reply buffer, the
# gray stack (8 bytes for each of 256 cells of a region), or lists of at most 256 regions or 3 sessions.
READ, FIELDS, BATCH, UNDO, EVENT, BOX = 65_536, 8192 * 6, 65_536, 32, 72, 8192 + 2048
OPTIONS = [32 * 608] * 6
MARGIN = 1.25


def sizes_told(file):
    """Returns the sizes in the file that the library wrote, largest first."""
    return sorted((size for (size,) in struct.iter_unpack("Q", file.read())), reverse=True)


def sizes_of_run(command, library, given):
    """Returns the sizes of the requests that a command makes in a session."""
    with tempfile.NamedTemporaryFile() as sizes:
        variables = {"LD_PRELOAD": library, "SIZES": sizes.name}
        subprocess.run(command, env=variables, capture_output=True, input=given, timeout=60, check=True)
        return sizes_told(sizes)


def sizes_of_server(program, library, words, clients):
    """Returns the sizes of the requests that a server of these clients makes, one after another."""
    with tempfile.NamedTemporaryFile() as sizes:
        variables = {"LD_PRELOAD": library, "SIZES": sizes.name}
        with Server(program, len(clients), *words, env=variables) as server:
            for given in clients:
                if client := client_of(server, server.port):
                    with client:
                        answered(client, given)
            server.ended(60)
        return sizes_told(sizes)


def are_right_sizes(sizes, large):
    """Tells whether the largest of these sizes are within these limits, and no other is larger than a box."""
    limits = sorted((size for size in large if size > BOX), reverse=True)
    limits += [BOX] * (len(sizes) - len(limits))
    return sizes != [] and all(size <= MARGIN * limit for size, limit in zip(sizes, limits))


def wrong_sizes(program, library, lines):
    """Yields what a session asks for at once that is too much, over small heaps: it runs alone, is saved, or is one of three that are
    served."""
    given = b"".join(line + b"\n" for line in lines)
    for regions, keep in ((1, 1), (2, 1000)):
        words = ["--regions", str(regions), "--keep", str(keep)]
        ring, redo = UNDO * (keep + min(keep, 64)), EVENT * keep
        with tempfile.TemporaryDirectory() as folder:
            saving = [program, "save", "--out", os.path.join(folder, "out.hprof"), *words]
            told = (
                ("run", sizes_of_run([program, "run", *words], library, given), [READ, FIELDS, *OPTIONS, ring]),
                ("save", sizes_of_run(saving, library, given), [READ, FIELDS, *OPTIONS, ring, redo, BATCH]),
                ("serve", sizes_of_server(program, library, words, [given] * 3), [*[READ, READ, FIELDS] * 3, *OPTIONS, ring]),
            )
        for task, sizes, large in told:
            if not are_right_sizes(sizes, large):
                yield f"{task} {' '.join(words)}: it asks for {', '.join(map(str, sizes[:8]))} .. bytes"


# ---- what undoing asks for

# Steps of all fifteen kinds in a heap of two regions, each answered `ok`: two cycles that leave objects, between which two are
# removed, and one that leaves none. Registers 1 and 4 are made null, so that the log names the object that `drain` finds.
STEPS = """class Node - next:object v:long, array [Node;, new 0 0 0, new 0 1 0, newarray 0 2 1 3, newprim 0 3 long 2, put 0 0 1 7,
    store 0 0 0 1, store 0 2 0 0, load 0 4 0 0, load 0 4 0 1, move 1 0 0 0, clear 0 1, clear 0 4, snap, new 0 5 0, clear 0 3,
    store 0 0 0 5, mark, mark, drain, mark, mark, finish, sweep 0, snap, mark, mark, mark, finish, sweep 0, clear 0 2, clear 0 5,
    clear 1 0, clear 0 0, snap, finish, sweep 0"""
# An object, and a cycle that leaves it.
LIVE = "class Node - v:long, new 0 0 0"
SWEPT = "snap, mark, finish, sweep 0, open -, open 5, put 0 0 0 7"
# The places at which pins are opened: before the first step, in the first cycle, and before and after the sweep that removes two.
PINNED = 0, 18, 30, 31


class Counted:
    """A session whose requests for memory are counted."""

    def __init__(self, program, library):
        self.sizes = tempfile.NamedTemporaryFile()
        variables = {"LD_PRELOAD": library, "SIZES": self.sizes.name}
        pipes = {"stdin": subprocess.PIPE, "stdout": subprocess.PIPE, "bufsize": 0}
        self.run = subprocess.Popen([program, "run", "--regions", "2"], env=variables, **pipes)

    def requests(self):
        """Returns how many requests were made so far."""
        return os.path.getsize(self.sizes.name) // 8

    def reply(self, line):
        """Sends a line. Returns its reply, and how many requests were made for it."""
        before = self.requests()
        self.run.stdin.write(line + b"\n")
        reply = b""
        while not reply.endswith(b"\n") and (part := self.run.stdout.read(4096)):
            reply += part
        return reply[:-1], self.requests() - before

    def __enter__(self):
        return self

    def __exit__(self, *_):
        self.run.kill()
        self.run.communicate()
        self.sizes.close()


def taken_steps(session, steps, pinned):
    """Takes steps, with a pin opened at each of these places. Yields what was asked for memory or refused otherwise than it may: the
    definition of a class asks, and nothing is refused."""
    for place in range(len(steps) + 1):
        if place in pinned and not (reply := session.reply(b"open -")[0]).startswith(b"ok pin "):
            yield f"open - at place {place}: {reply!r}"
        if place < len(steps):
            reply, count = session.reply(steps[place])
            if not reply.startswith(b"ok") or (count == 0 and steps[place].startswith(b"class ")):
                yield f"{steps[place]!r} at place {place}: {reply!r} after {count} requests"


def wrong_undoing(program, library, pinned):
    """Yields what goes wrong in a session that takes all steps, with pins opened at these places, undoes them one by one and closes
    the pins, and takes the steps and undoes them at once: no rewind and no `close` may ask for memory."""
    steps = words_of(STEPS)
    last = len(steps)
    with Counted(program, library) as session:
        yield from taken_steps(session, steps, pinned)
        told = [(b"rewind %d" % (last + 1), b"no 21 TooFar %d %d" % (last + 1, last))]
        told += [(b"rewind 1", b"ok place %d" % place) for place in reversed(range(last))]
        told += [(b"close %d" % (number + 1), b"ok") for number in range(len(pinned))]
        for line, wanted in told:
            if (found := session.reply(line)) != (wanted, 0):
                yield f"{line!r} before {wanted!r}: {found[0]!r} after {found[1]} requests"
        yield from taken_steps(session, steps, pinned)
        if (found := session.reply(b"rewind %d" % last)) != (b"ok place 0", 0):
            yield f"rewind {last}: {found[0]!r} after {found[1]} requests"


def wrong_sweep(program, library):
    """Yields what goes otherwise than it may where a sweep finds no dead object beside a pin: it asks for no memory, and a pin on the state
    before it for as much as one on the state after it. The first write to the region then makes one copy for all three pins: its box,
    and the count of who holds it."""
    with Counted(program, library) as session:
        yield from taken_steps(session, words_of(LIVE), (2,))
        *cycle, after, before, put = [session.reply(line)[1] for line in words_of(SWEPT)]
        if any(cycle) or after != before or put != 2:
            yield f"a sweep that finds no dead object: {cycle}, {after}, {before} and {put} requests"


# Two writes, each of what a pin shows, and then which pins there are.
LOSING = "class Node - v:long, new 0 0 0, open -, put 0 0 0 5, open -, put 0 0 0 7, pins, dump 1, dump 2, pins"


def wrong_lost_pins(program, library):
    """Yields what `pins` answers otherwise than it may, if memory for the copies of pins is refused to a write: their places, and that they
    are lost by Memory. It must be seen for each pin."""
    places, seen = {1: 2, 2: 3}, set()
    for number in range(1, LIMIT):
        status, found, error = session([program, "explore", "--regions", "2"], library, words_of(LOSING), number)
        if not error:
            break
        lost = {pin for pin, (_, last) in zip(places, found[7:9]) if last == LOST}
        if (status, error) != (0, b"refused\n") or not lost or any(last == REFUSED for _, last in found):
            continue
        seen |= lost
        rows = [b"row %d %d lost Memory" % (pin, place) if pin in lost else None for pin, place in places.items()]
        for told, last in (found[6], found[9]):
            if last != b"ok 2" or len(told) != 2 or any(row and row != shown for row, shown in zip(rows, told)):
                yield f"allocation {number}, {sorted(lost)} lost: {told}, {last!r}"
    if seen != set(places):
        yield f"only the pins {sorted(seen)} are ever lost by Memory"


def told(name, numbers, verbose):
    """Prints what came of refusing the allocations, if something went wrong or it is asked. Returns whether all went as it may."""
    wrong = []
    while True:
        try:
            wrong.append(next(numbers))
        except StopIteration as end:
            count = end.value
            break
    good = not wrong and 0 < count < LIMIT
    if verbose or not good:
        print(f"{name}: {count} allocations refused in turn" + (f", wrong after {wrong}" if wrong else ""))
    return good


def main(heapdbg, verbose=False):
    """Returns the exit status: 0 where every run went as it may."""
    with tempfile.TemporaryDirectory() as folder:
        library = refusing(folder)
        program = os.path.abspath(heapdbg)
        command, beside = [program, "run", "--regions", "2"], [program, "explore", "--regions", "2", "--page"]
        good = True
        for name, text in SESSIONS.items():
            lines = words_of(text)
            good = told(name, wrong_sessions(command, library, lines), verbose) and good
            good = told(f"{name}, beside a page", wrong_sessions([*beside, str(free_port())], library, lines, 6), verbose) and good
            good = told(f"{name}, saved", wrong_saves(program, library, lines), verbose) and good
            good = told(f"{name}, acts", wrong_acts(program, library, lines), verbose) and good
            good = told(f"{name}, served", wrong_servers(program, library, lines, SECOND), verbose) and good
            for line in wrong_sizes(program, library, lines):
                print(f"{name}, {line}")
                good = False
        explore = [program, "explore", "--regions", "4"]
        good = told("questions", wrong_sessions(explore, library, words_of(QUESTIONS)), verbose) and good
        wide = [program, "run", "--wide", "1", "--regions", WIDE_REGIONS]
        good = told("a wide heap", wrong_sessions(wide, library, WIDE), verbose) and good
        for regions, both in BESIDE_WORKERS.items():
            name = f"{regions} regions beside workers and dumps"
            good = told(name, wrong_tended(program, library, both, regions), verbose) and good
        for pinned in ((), PINNED):
            for line in wrong_undoing(program, library, pinned):
                print(f"undoing with {len(pinned)} pins, {line}")
                good = False
        for line in wrong_sweep(program, library):
            print(line)
            good = False
        for line in wrong_lost_pins(program, library):
            print(f"lost pins, {line}")
            good = False
    return 0 if good else 1


if __name__ == "__main__":
    words = [word for word in sys.argv[1:] if word != "-v"]
    sys.exit(main(*words, verbose="-v" in sys.argv))
