#!/usr/bin/env python3
"""Converts heap dumps to sessions, and compares the heaps that these make with the dumps: `importing.py PROGRAM IMPORT`.

PROGRAM is heapdbg, IMPORT heapdbg-import. The dumps are those of example sessions, which heapdbg saves, two that a JVM made of
dumps/Rings.java, which are kept beside it, and those of programs in Java, where `javac` and `java` are installed. A reader of HPROF of its own reads both dumps. From the roots on, each object
must have the class, the values and the references of its like, but for arrays of more than 1,024 elements, which are cut unless
the heap has an area. Bad files and bad words must be refused; what is left out must be told. `explore --hprof` must answer, and
report, just as `explore --from` does with the session of the dump, also of dumps that are cut or have a byte changed. So must
`run --hprof` and `draw --hprof`, which draws what `draw` draws after the lines of the session. Two sessions of `serve --hprof`, one
after the other, must be answered as one of `explore --hprof` is, and so must the page. A dump must be opened in little memory. Prints
a line for each thing that is otherwise than it must be, and ends with status 1 then."""
import os
import pathlib
import re
import shutil
import subprocess
import sys
import tarfile
import tempfile

TOP = pathlib.Path(__file__).resolve().parent.parent
sys.path[:0] = [str(TOP / "checks/page"), str(TOP / "checks/model")]

from asking import Page  # noqa: E402
from ports import free_port  # noqa: E402
from servers import Server, exchanged, memory_of  # noqa: E402

LIMIT = 120
SESSIONS = ("leak", "orders", "services", "point")
MOST_ELEMENTS, MOST_WITH_AREA, MOST_FIELDS = 1024, 2_097_147, 64
WIDTHS = {4: 1, 5: 2, 6: 4, 7: 8, 8: 1, 9: 2, 10: 4, 11: 8}
OBJECT = 2
# The tag of each kind of root, the bytes after its id (an identifier, if negative), and the class of the arrays that keep them.
ROOTS = {0x01: (-1, "JNI_global"), 0x02: (8, "JNI_local"), 0x03: (8, "Java_frame"), 0x04: (4, "native_stack"), 0x05: (0, "sticky_class"),
         0x06: (4, "thread_block"), 0x07: (0, "monitor_used"), 0x08: (8, "thread_object"), 0xFF: (0, "unknown_root")}


# What is asked of a heap that `explore --hprof` makes: the whole heap too, as a dump.
QUESTIONS = b"status\nclasses\nregions\nregisters\nhistogram\ndump -\ncollect\nhistogram\ndominators 20\n"
WIDE = ("--wide", "--regions", "2048", "--area", "600", "--keep", "16")
SMALL = ("--wide", "0", "--regions", "16", "--keep", "16")
# A heap that is too small for a dump.
FULL = ("--wide", "0", "--regions", "1", "--keep", "16")
# What `--hprof` stands for, beside the dump.
USUAL = ("--wide", "--regions", "65536", "--area", "16384", "--keep", "65536")
# The lines that `run` answers without `--questions`, too.
PLAIN = b"new 0 0 0\nsnap\ndump -\nrewind 1\n"
# A session that defines a class with a long line, for a wide heap alone.
LONG = b"class Long - " + b" ".join(b"%s%d:long" % (b"f" * 90, i) for i in range(60)) + b"\nnew 0 0 0\n"
# A session of large arrays, and the heap that it is for.
LARGE = b"""class Node - next:object v:long
array [Node;
new 0 0 0
put 0 0 1 7
newprim 0 1 long 3000
put 0 1 2999 5
put 0 1 1024 18446744073709551615
newarray 0 2 1 1025
store 0 2 1024 0
store 0 2 0 2
newprim 0 3 boolean 1024
put 0 3 1023 1
newprim 0 4 char 70000
put 0 4 69999 65
store 0 0 0 2
"""
LARGE_HEAP = ("--wide", "--regions", "128", "--area", "100")
# What a session of a heap that is served asks, and then another: with `status` a served heap tells its acts, too.
ASKED_FIRST = b"classes\nregions\nregisters\nhistogram\ndump -\n"
ASKED_THEN = b"collect\nhistogram\ndominators 20\n"
# How a heap is served, beside the options of the heap.
SERVICES = (), ("--stay",), ("--workers",), ("--workers", "--stay"), ("--roll",)
# How many nodes a list has whose dump is opened, and the most bytes that this may take for each object, beside the dump and its heap.
NODES, MOST_BESIDE = 300_000, 20
# How many refused lines of a dump's session are reported.
REPORTED = 8
REFUSED = re.compile(rb":\d+: (no \d|bad command)")


class Dump:
    """A heap dump: classes by their ids, with their names, supers, fields and static fields; objects by theirs; and roots."""

    def __init__(self, path, has_area=False):
        self.bytes = pathlib.Path(path).read_bytes()
        self.most = MOST_WITH_AREA if has_area else MOST_ELEMENTS
        self.at = self.bytes.index(0) + 1
        self.id_size = self.number(4)
        self.widths = {**WIDTHS, OBJECT: self.id_size}
        self.names, self.loads, self.classes, self.objects, self.roots = {}, {}, {}, {}, []
        self.at += 8
        while self.at < len(self.bytes):
            self.record()

    def number(self, size):
        """Reads a number, the highest byte first."""
        self.at += size
        return int.from_bytes(self.bytes[self.at - size:self.at], "big")

    def id(self):
        """Reads an identifier."""
        return self.number(self.id_size)

    def record(self):
        """Reads a record."""
        tag, _, size = self.number(1), self.number(4), self.number(4)
        end = self.at + size
        if tag == 0x01:
            name = self.id()
            self.names[name] = self.bytes[self.at:end].decode("latin1")
        elif tag == 0x02:
            self.at += 4
            loaded = self.id()
            self.at += 4
            self.loads[loaded] = self.id()
        elif tag in (0x0C, 0x1C):
            while self.at < end:
                self.sub_record(self.number(1))
        self.at = end

    def sub_record(self, tag):
        """Reads a sub-record."""
        if tag in ROOTS:
            self.roots.append((tag, self.id()))
            more = ROOTS[tag][0]
            self.at += self.id_size if more < 0 else more
        elif tag == 0x20:
            self.read_class()
        else:
            self.read_object(tag)

    def read_class(self):
        """Reads a class: its super, its fields as name and kind, and its static fields as name, kind and value."""
        number, _, above = self.id(), self.number(4), self.id()
        self.at += 5 * self.id_size + 4
        for _ in range(self.number(2)):
            self.at += 2
            self.number(self.widths[self.number(1)])
        statics = []
        for _ in range(self.number(2)):
            name, kind = self.id(), self.number(1)
            statics.append((name, kind, self.number(self.widths[kind])))
        fields = [(self.id(), self.number(1)) for _ in range(self.number(2))]
        self.classes[number] = above, fields, statics

    def read_object(self, tag):
        """Reads an object: whether it is an instance (0x21) or an array, its class or the kind of its values, and these."""
        number, _, size = self.id(), self.number(4), 0
        if tag == 0x21:
            kind, size = self.id(), self.number(4)
            self.objects[number] = tag, kind, self.bytes[self.at:self.at + size]
            self.at += size
        else:
            count = self.number(4)
            kind = self.id() if tag == 0x22 else self.number(1)
            width = self.id_size if tag == 0x22 else self.widths[kind]
            self.objects[number] = tag, kind, [self.number(width) for _ in range(count)]

    def class_name(self, number):
        """Returns the name of a class."""
        return self.names[self.loads[number]]

    def fields_of(self, number):
        """Yields the slots of an instance: name, kind and value, those of its own class first."""
        _, at, values = self.objects[number]
        place = 0
        while at:
            above, fields, _ = self.classes[at]
            for name, kind in fields:
                width = self.widths[kind]
                yield self.names[name], kind, int.from_bytes(values[place:place + width], "big")
                place += width
            at = above

    def statics_of(self, number):
        """Returns the static fields of a class as slots of an object: the first 64."""
        return [(self.names[name], kind, value) for name, kind, value in self.classes[number][2][:MOST_FIELDS]]

    def parts(self, number):
        """Returns an object's class, and its slots: name or index, kind, and value."""
        if number not in self.objects:
            return self.class_name(number) + ".static", self.statics_of(number)
        tag, of, values = self.objects[number]
        if tag == 0x21:
            return self.class_name(of), list(self.fields_of(number))
        name, kind = (self.class_name(of), OBJECT) if tag == 0x22 else (of, of)
        return name, [(index, kind, value) for index, value in enumerate(values[:self.most])]

    def is_made(self, number):
        """Tells whether a heap has this object: an object of the dump, or a class with a static field that names one."""
        named = number in self.classes and any(kind == OBJECT and value in self.objects for _, kind, value in self.statics_of(number))
        return number in self.objects or named


def kept_roots(dump):
    """Returns the roots that a session kept, by the class of their arrays."""
    (top,) = (root for tag, root in dump.roots if tag == 0xFF)
    kept = {}
    for _, _, array in dump.parts(top)[1]:
        if array:
            name, slots = dump.parts(array)
            kept.setdefault(name, []).extend(value for _, _, value in slots)
    return kept


def pairs_of_roots(old, new):
    """Returns the roots of a dump, each with its like in the heap of its session. None if there aren't as many."""
    kept, pairs = kept_roots(new), []
    for tag, (_, name) in ROOTS.items():
        wanted = [root for which, root in old.roots if which == tag and old.is_made(root)]
        if len(wanted) != len(kept.get(name, [])):
            return None
        pairs += zip(wanted, kept.get(name, []))
    return pairs


def difference(old, new, seen=None):
    """Returns how the heap of a session differs from the dump that it is of, from the roots on; None if it doesn't. Notes in `seen` the
    like of each object that is reached."""
    waiting, seen = pairs_of_roots(old, new), {} if seen is None else seen
    if waiting is None:
        return "the roots aren't as many"
    while waiting:
        mine, other = waiting.pop()
        if mine in seen:
            if seen[mine] != other:
                return f"object {mine:#x} has two likes"
            continue
        seen[mine] = other
        (name, slots), (found, likes) = old.parts(mine), new.parts(other)
        if name != found or [it[:2] for it in slots] != [it[:2] for it in likes]:
            return f"object {mine:#x} of {name} is one of {found}, or has other slots"
        for (slot, kind, value), (_, _, like) in zip(slots, likes):
            if kind != OBJECT:
                if value != like:
                    return f"slot {slot} of object {mine:#x} of {name} has {like} for {value}"
            elif bool(like) != bool(value and old.is_made(value)):
                return f"slot {slot} of object {mine:#x} of {name} names {like:#x} for {value:#x}"
            elif like:
                waiting.append((value, like))
    return None if seen else "nothing is reached"


def left_out(dump):
    """Returns what is reported as left out by the session of a dump that has no fault and keeps within all other limits."""
    made = {number for number in [*dump.objects, *dump.classes] if dump.is_made(number)}
    slots = [slot for number in dump.objects for slot in dump.parts(number)[1]]
    kept = sum(len(dump.statics_of(number)) for number in dump.classes if number in made)
    counts = ((sum(tag != 0x21 and len(values) > dump.most for tag, _, values in dump.objects.values()), f"arrays cut to {dump.most:,} elements"),
              (sum(kind == OBJECT and value != 0 and value not in made for _, kind, value in slots), "references to what isn't made"),
              (sum(root not in made for _, root in dump.roots), "roots of what isn't made"),
              (sum(len(statics) for _, _, statics in dump.classes.values()) - kept, "static fields that no object has"))
    return ", ".join(f"{count} {words if count > 1 else one_of(words)}" for count, words in counts if count)


def one_of(words):
    """Returns these words of one thing."""
    return re.sub(r"^(static field|array|reference|root)s", r"\1", words)


def saved(program, words, session, dump):
    """Saves the dump of the heap that a session makes. Returns the replies."""
    with open(session, "rb") as lines:
        return subprocess.run([program, "save", *words, "--out", str(dump)], stdin=lines, capture_output=True, check=True, timeout=LIMIT).stdout


def imported(program, importer, dump, folder, *area):
    """Yields what is wrong with the session of a dump, for a heap without an area or, by the word `--area`, for one with an area."""
    session, again = folder / "imported.session", folder / "again.hprof"
    ran = subprocess.run([importer, *area, str(dump), str(session)], capture_output=True, timeout=LIMIT)
    if ran.returncode:
        yield f"{dump.name}: heapdbg-import ends with status {ran.returncode}: {ran.stderr.decode()}"
        return
    told_of, wanted = ran.stderr.decode(), left_out(Dump(dump, area))
    if told_of != (f"heapdbg-import: {dump}: {wanted}\n" if wanted else ""):
        yield f"{dump.name}: heapdbg-import says {told_of!r} of what it leaves out, and must say {wanted!r}"
    words = ["--wide", "1", "--regions", "65536", "--keep", "1", *area, *["16384"] * len(area)]
    replies = saved(program, words, session, again)
    refused = [line for line in replies.decode().splitlines() if not line.startswith(("ok", "saved "))]
    if refused:
        yield f"{dump.name}: the heap refuses {len(refused)} lines of its session, the first with {refused[0]}"
        return
    different = difference(Dump(dump, area), Dump(again, area))
    if different:
        yield f"{dump.name}: {different}"


def kept_dumps(folder):
    """Returns the two dumps of a JVM that are kept."""
    with tarfile.open(TOP / "checks/dumps/rings.tar.xz") as kept:
        kept.extractall(folder)
    return folder / "first.hprof", folder / "second.hprof"


def java_dump(folder):
    """Returns the dump of the program in Java, or None where Java isn't installed."""
    if not (shutil.which("javac") and shutil.which("java")):
        return None
    subprocess.run(["javac", "-d", str(folder), str(TOP / "examples/Cache.java")], check=True, capture_output=True, timeout=LIMIT)
    dump = folder / "cache.hprof"
    subprocess.run(["java", "-cp", str(folder), "Cache", str(dump)], check=True, capture_output=True, timeout=LIMIT)
    return dump


def java_pair(folder):
    """Returns two dumps of one program in Java, or None where Java isn't installed."""
    if not (shutil.which("javac") and shutil.which("java")):
        return None
    subprocess.run(["javac", "-d", str(folder), str(TOP / "examples/Growing.java")], check=True, capture_output=True, timeout=LIMIT)
    dumps = folder / "before.hprof", folder / "after.hprof"
    subprocess.run(["java", "-cp", str(folder), "Growing", *map(str, dumps)], check=True, capture_output=True, timeout=LIMIT)
    return dumps


def written(answers, path):
    """Writes the dump in these answers to a file. Returns what is left of them after it."""
    text, bytes_of = answers.splitlines(), bytearray()
    while text and text[0].startswith(b"data "):
        bytes_of += bytes.fromhex(text.pop(0)[5:].decode())
    path.write_bytes(bytes_of)
    return b"\n".join(text[1:]) + b"\n"


def histogram(dump):
    """Returns how many objects of each class or kind a dump has, and their bytes."""
    counts = {}
    for number in dump.objects:
        name, slots = dump.parts(number)
        objects, size = counts.get(name, (0, 0))
        counts[name] = objects + 1, size + sum(dump.widths[kind] for _, kind, _ in slots)
    return counts


def stays(first, second, number):
    """Tells whether both dumps have an object with this id, of a class with one name, and of one size."""
    if number not in first.objects or number not in second.objects:
        return False
    (tag, of, values), (other, to, others) = first.objects[number], second.objects[number]
    if tag != other or tag != 0x21 and len(values) != len(others):
        return False
    return of == to if tag == 0x23 else first.class_name(of) == second.class_name(to)


def paired(program, importer, dumps, folder, *words):
    """Yields what is wrong with the heap of two dumps: pin 1 must have that of the first, and the current state that of the second, and
    an object must have one id in both exactly if it stayed. `explore --from` with the session of both must answer likewise."""
    name, session = " and ".join(dump.name for dump in dumps), folder / "pair.session"
    lines = b"dump 1\ndump -\ngrowth 1 -\nkept 1 -\ndiff 1 -\nclasses\n"
    ran = subprocess.run([program, "explore", *words, "--hprof", str(dumps[0]), "--then", str(dumps[1])], input=lines, capture_output=True, timeout=LIMIT)
    wrote = subprocess.run([importer, "--area", str(dumps[0]), "--then", str(dumps[1]), str(session)], capture_output=True, timeout=LIMIT)
    replayed = subprocess.run([program, "explore", *(words or USUAL), "--from", str(session)], input=lines, capture_output=True, timeout=LIMIT)
    if ran.returncode or wrote.returncode or ran.stdout != replayed.stdout:
        yield f"{name}: explore --then ends with {ran.returncode}, {ran.stderr!r}; importing with {wrote.returncode}, or another answer"
        return
    if b": no " in ran.stderr or ran.stderr != wrote.stderr.replace(b"heapdbg-import:", b"heapdbg:"):
        yield f"{name}: explore --then reports {ran.stderr!r}"
    made = folder / "pinned.hprof", folder / "current.hprof"
    answers = written(written(ran.stdout, made[0]), made[1])
    given, heaps, likes = [Dump(dump, True) for dump in dumps], [Dump(dump, True) for dump in made], ({}, {})
    for old, new, seen in zip(given, heaps, likes):
        different = difference(old, new, seen)
        if different:
            yield f"{name}: {different}"
            return
        tops = {root for _, root in new.roots} & set(new.objects)
        arrays = {value for top in tops for _, _, value in new.parts(top)[1] if value}
        if set(new.objects) != set(seen.values()) & set(new.objects) | tops | arrays:
            yield f"{name}: a heap has {len(new.objects)} objects, of which the roots reach {len(seen)}"
    for number in set(likes[0]) & set(likes[1]):
        if number in given[0].objects and stays(*given, number) != (likes[0][number] == likes[1][number]):
            yield f"{name}: object {number:#x} has the ids {likes[0][number]:#x} and {likes[1][number]:#x}"
    counts = [histogram(heap) for heap in heaps]
    grown = sum(counts[0].get(kind) != counts[1].get(kind) for kind in {**counts[0], **counts[1]})
    if f"ok {grown}".encode() != next(line for line in answers.splitlines() if line.startswith(b"ok")):
        yield f"{name}: {grown} classes must have grown or shrunk: {answers[:2000]!r}"


def told(program, option, path, words, name=None, command=("explore",), lines=QUESTIONS):
    """Returns what a command, such as `explore`, does with a file and these lines: its status, its answers and its reports, with
    another name for the file in these."""
    ran = subprocess.run([program, *command, *words, option, str(path)], input=lines, capture_output=True, timeout=LIMIT)
    return ran.returncode, ran.stdout, ran.stderr.replace(bytes(path), bytes(name or path))


def alike(program, importer, dump, folder, *words):
    """Yields how `run --hprof` and `draw --hprof` differ from `explore --hprof`, and the picture from that of the session's lines."""
    shown, other, session = (folder / name for name in ("shown.svg", "other.svg", "drawn.session"))
    area = [] if words == SMALL else ["--area"]
    for command, lines in (("run", "--questions"), QUESTIONS), (("run",), PLAIN), (("draw", "--out", str(shown)), QUESTIONS):
        wanted = told(program, "--hprof", dump, words, lines=lines)
        got = told(program, "--hprof", dump, words, command=command, lines=lines)
        if got != wanted or got[0]:
            yield f"{dump.name} {' '.join(words)}: {' '.join(command)} --hprof: {got}, and explore --hprof: {wanted}"
    subprocess.run([importer, *area, str(dump), str(session)], capture_output=True, check=True, timeout=LIMIT)
    drawing = [program, "draw", *(words or USUAL), "--out", str(other)]
    subprocess.run(drawing, input=session.read_bytes() + QUESTIONS, capture_output=True, check=True, timeout=LIMIT)
    if shown.read_bytes() != other.read_bytes():
        yield f"{dump.name} {' '.join(words)}: draw --hprof draws another picture than draw does of the session"


def served(program, dump, words, service):
    """Returns the answers of two sessions of `serve --hprof`, that of its page between them, and what it reported at its end."""
    page = Page()
    page.port = free_port()
    with Server(program, 2, *words, *service, "--questions", "--page", str(page.port), "--hprof", str(dump)) as server:
        page.read_address(server.run.stderr)
        first, shown = exchanged(server, ASKED_FIRST), page.asked("histogram").encode()
        then = exchanged(server, ASKED_THEN)
        if "--stay" in service:
            server.run.kill()
        server.run.wait(LIMIT)
        return first + then, shown, server.run.stderr.read()


def served_alike(program, dump, *words):
    """Yields how `serve --hprof` differs from `explore --hprof`."""
    _, wanted, reports = told(program, "--hprof", dump, words, lines=ASKED_FIRST + ASKED_THEN)
    histogram = told(program, "--hprof", dump, words, lines=b"histogram\n")[1]
    for service in SERVICES:
        got = served(program, dump, words, service)
        if got != (wanted, histogram, reports):
            yield f"{dump.name} {' '.join((*words, *service))}: serve --hprof: {got}, and explore --hprof: {wanted, histogram, reports}"


def served_full(program, dump):
    """Yields what is wrong with `serve --hprof` of a heap that is too small: lines are refused, and then clients are served."""
    with Server(program, 1, *FULL, "--hprof", str(dump)) as server:
        got = exchanged(server, PLAIN), server.run.communicate(timeout=LIMIT)[1]
    wanted = told(program, "--hprof", dump, FULL, lines=PLAIN)[1:]
    if got != wanted or b" HeapFull: " not in got[1]:
        yield f"serve --hprof of a heap that is too small: {got}, and explore --hprof: {wanted}"


def limited(reports, dump):
    """Returns the reports of a session's lines as they are of the session of a dump: of the refused ones only the first, and a count."""
    lines = reports.splitlines(keepends=True)
    refused = [line for line in lines if REFUSED.search(line)]
    others = [line for line in lines if line not in refused]
    more = len(refused) - REPORTED
    count = [b"heapdbg: %s: %d more lines refused\n" % (bytes(dump), more)] if more > 0 else []
    return b"".join(refused[:REPORTED] + count + others)


def explored(program, importer, dump, folder, *words):
    """Yields how `explore --hprof` differs from `explore --from` with the session that heapdbg-import writes."""
    session = folder / "explored.session"
    area = [] if words == SMALL else ["--area"]
    ran = subprocess.run([importer, *area, str(dump), str(session)], capture_output=True, timeout=LIMIT)
    said = ran.stderr.replace(b"heapdbg-import:", b"heapdbg:")
    status, answers, reports = told(program, "--from", session, words or USUAL, dump)
    wanted = (1, b"", said + b"heapdbg: hprof\n") if ran.returncode else (status, answers, limited(reports, dump) + said)
    for name, got, want in zip(("status", "answers", "reports"), told(program, "--hprof", dump, words), wanted):
        if got != want:
            yield f"{dump.name} {' '.join(words)}: explore --hprof has another {name}: {got[-200:] if name != 'status' else got!r}"


def changed(program, importer, dump, folder):
    """Yields how `explore --hprof` differs from `explore --from` for a dump that is cut, or has one byte changed, at some bytes."""
    whole, bad = dump.read_bytes(), folder / "changed.hprof"
    for place in range(0, len(whole), max(len(whole) // 40, 1)):
        bad.write_bytes(whole[:place])
        yield from explored(program, importer, bad, folder, *WIDE)
        bad.write_bytes(whole[:place] + bytes([whole[place] ^ 0xFF]) + whole[place + 1:])
        yield from explored(program, importer, bad, folder, *WIDE)


def unread(program, dump, folder):
    """Yields what is wrong with how `explore --hprof` refuses files that can't be read, and words."""
    picture = folder / "no.svg"
    commands = ("explore",), ("run",), ("run", "--questions"), ("draw", "--out", str(picture)), ("serve", "--port", str(free_port()))
    for command in commands:
        for path in folder / "missing", folder:
            ran = told(program, "--hprof", path, (), command=command)
            if ran != (1, b"", b"heapdbg: hprof\n"):
                yield f"{' '.join(command)} --hprof {path.name}: {ran}"
        yield from hindered(program, command, folder)
    if picture.exists():
        yield "draw --hprof draws a picture of a heap that isn't made"
    for words in ["--from", str(dump)], ["--port", "7000"]:
        status, answers, reports = told(program, "--hprof", dump, words)
        if status != 2 or answers or words[0].encode() not in reports:
            yield f"explore --hprof with {words[0]}: status {status}, {answers!r}, {reports!r}"


def hindered(program, command, folder):
    """Yields what is wrong with how a command with `--hprof` refuses a file without a header, and a line that is too long."""
    bad, session, dump = folder / "bad.hprof", folder / "long.session", folder / "long.hprof"
    bad.write_bytes(b"JAVA PROFILE 1.0.2 it isn't")
    ran = told(program, "--hprof", bad, (), command=command)
    if ran != (1, b"", b"heapdbg: %s: no header of a dump\nheapdbg: hprof\n" % bytes(bad)):
        yield f"{' '.join(command)} --hprof without a header: {ran}"
    session.write_bytes(LONG)
    saved(program, ["--wide"], session, dump)
    status, answers, reports = told(program, "--hprof", dump, SMALL, command=command)
    if status != 1 or answers or not reports.endswith(b"heapdbg: hprof\n") or reports.count(b": the line is too long\n") != 1:
        yield f"{' '.join(command)} --hprof of a line that is too long: status {status}, {answers!r}, {reports!r}"


def refusals(importer, dump, folder):
    """Yields what is wrong with how bad files and bad words are refused."""
    bad, out = folder / "bad.hprof", folder / "bad.session"
    bad.write_bytes(b"no dump at all")
    cases = [([], 2), ([str(dump)], 2), ([str(dump), str(out), "more"], 2), (["--area", str(dump)], 1), (["--wide", str(dump), str(out)], 2),
             ([str(dump), str(out), "--area"], 2), (["--area", str(dump), str(out), "more"], 2), (["--area", str(bad), str(out)], 1), ([str(folder / "missing"), str(out)], 1),
             ([str(folder), str(out)], 1), ([str(bad), str(out)], 1), ([str(dump), str(folder / "missing/out")], 1)]
    for words, status in cases:
        ran = subprocess.run([importer, *words], capture_output=True, timeout=LIMIT)
        if ran.returncode != status or not ran.stderr or ran.stdout:
            yield f"heapdbg-import {words}: status {ran.returncode}, {ran.stdout!r}, {ran.stderr!r}"


def cut_dumps(importer, dump, folder):
    """Yields what is wrong with the sessions of a dump that is cut at each of many bytes: a fault must be told with its byte."""
    whole, cut = dump.read_bytes(), folder / "cut.hprof"
    for size in range(40, len(whole), max(len(whole) // 60, 1)):
        cut.write_bytes(whole[:size])
        ran = subprocess.run([importer, str(cut), str(folder / "cut.session")], capture_output=True, timeout=LIMIT)
        if ran.returncode or b" at byte " not in ran.stderr and ran.stderr:
            yield f"the first {size} bytes: status {ran.returncode}, {ran.stderr!r}"


def large_arrays(program, importer, folder):
    """Yields what is wrong with dumps that have arrays of more than 1,024 elements."""
    session, dump = folder / "large.session", folder / "large.hprof"
    session.write_bytes(LARGE)
    for ids in "4", "8":
        saved(program, ["--ids", ids, *LARGE_HEAP], session, dump)
        for area in [], ["--area"]:
            yield from imported(program, importer, dump, folder, *area)
        for words in (), WIDE, SMALL:
            yield from explored(program, importer, dump, folder, *words)
        yield from alike(program, importer, dump, folder, *WIDE)
        few = told(program, "--hprof", dump, ("--regions", "64", "--area", "8"))[2]
        if few.count(b" no 13 HeapFull: newprim 0 5 char 70000\n") != 1:
            yield f"a dump whose large arrays the area has no room for: {few!r}"


def opened_in_little(program, folder):
    """Yields what is wrong with the memory that a dump of many objects takes while it is opened, beside its bytes and its heap."""
    session, dump = folder / "many.session", folder / "many.hprof"
    node = b"new 0 1 0\nput 0 1 1 %d\nstore 0 1 0 0\nmove 0 0 0 1\n"
    session.write_bytes(b"class Node - next:object key:int\n" + b"".join(node % key for key in range(NODES)) + b"clear 0 1\n")
    saved(program, ["--wide", "--regions", "4096"], session, dump)
    # Freed blocks go back to the system, so that what is held is the heap's.
    own = {**os.environ, "MALLOC_MMAP_THRESHOLD_": "65536"}
    with subprocess.Popen([program, "explore", "--hprof", str(dump)], env=own, stdin=subprocess.PIPE, stdout=subprocess.PIPE, stderr=subprocess.DEVNULL) as ran:
        ran.stdin.write(b"status\n")
        ran.stdin.flush()
        ran.stdout.readline()
        most, held = memory_of(ran, "VmHWM"), memory_of(ran)
        ran.stdin.close()
        ran.wait(LIMIT)
    beside = (most - held - dump.stat().st_size) / NODES
    if beside > MOST_BESIDE:
        yield f"a dump of {NODES} objects: {beside:.1f} bytes for each beside its {dump.stat().st_size} and the heap's {held}"


def paired_sessions(program, importer, folder):
    """Yields what is wrong with pairs of dumps of a session: of its state after a part of its lines and at its end, and of one state."""
    for name in SESSIONS:
        lines = (TOP / f"examples/{name}.session").read_bytes().splitlines(keepends=True)
        part, dumps = folder / "part.session", (folder / f"{name}-part.hprof", folder / f"{name}-whole.hprof")
        for ids in "4", "8":
            for dump, count in zip(dumps, (len(lines) * 2 // 3, len(lines))):
                part.write_bytes(b"".join(lines[:count]))
                saved(program, ["--ids", ids, "--keep", "65536"], part, dump)
            yield from paired(program, importer, dumps, folder)
            yield from paired(program, importer, (dumps[1], dumps[1]), folder)
            yield from paired(program, importer, dumps[::-1], folder, *WIDE)


def differences(program, importer):
    """Yields what is wrong."""
    with tempfile.TemporaryDirectory(prefix="importing-") as name:
        folder = pathlib.Path(name)
        for session in SESSIONS:
            for ids in "4", "8":
                dump = folder / f"{session}-{ids}.hprof"
                saved(program, ["--ids", ids], TOP / f"examples/{session}.session", dump)
                yield from imported(program, importer, dump, folder)
                yield from imported(program, importer, dump, folder, "--area")
                yield from explored(program, importer, dump, folder, *WIDE)
                yield from explored(program, importer, dump, folder)
                yield from explored(program, importer, dump, folder, *SMALL)
                yield from alike(program, importer, dump, folder)
                yield from alike(program, importer, dump, folder, *SMALL)
                yield from served_alike(program, dump, *SMALL)
        yield from served_alike(program, folder / "leak-8.hprof", *WIDE)
        yield from served_full(program, folder / "orders-8.hprof")
        yield from large_arrays(program, importer, folder)
        yield from changed(program, importer, folder / "leak-8.hprof", folder)
        yield from unread(program, folder / "leak-8.hprof", folder)
        yield from refusals(importer, folder / "leak-8.hprof", folder)
        yield from cut_dumps(importer, folder / "leak-4.hprof", folder)
        yield from opened_in_little(program, folder)
        yield from paired_sessions(program, importer, folder)
        rings = kept_dumps(folder)
        for dump in rings:
            yield from imported(program, importer, dump, folder)
        yield from imported(program, importer, rings[0], folder, "--area")
        yield from explored(program, importer, rings[1], folder, *WIDE)
        yield from paired(program, importer, rings, folder)
        pair = java_pair(folder)
        if pair:
            yield from paired(program, importer, pair, folder)
            yield from paired(program, importer, pair[::-1], folder)
        java = java_dump(folder)
        if java:
            yield from imported(program, importer, java, folder)
            yield from explored(program, importer, java, folder, *WIDE)


def main(program, importer):
    """Returns the exit status."""
    found = list(differences(program, importer))
    for line in found:
        print(line)
    return 1 if found else 0


if __name__ == "__main__":
    sys.exit(main(*sys.argv[1:]))
