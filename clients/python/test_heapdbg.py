#!/usr/bin/env python3
"""Tests of the client: `test_heapdbg.py PROGRAM`, over the built program, and over streams that a test wrote.

Prints what fails, and ends with status 1 then. Prints nothing where all is well."""
import contextlib
import io
import os
import pathlib
import re
import shutil
import socket
import subprocess
import sys
import tempfile
import threading
import time
import unittest

import heapdbg
from heapdbg import BadCommand, Cells, Collected, Ended, EndedCycle, Field, Named, Now, ObjectId, Piece, Pin, PinAt, Place, Refused, RegionRow, Session, Swept
from heapdbg import fetch

PROGRAM = os.path.abspath(sys.argv[1]) if len(sys.argv) > 1 else "heapdbg"
NODE = [("next", "object"), ("v", "long")]
HERE = pathlib.Path(__file__).resolve().parent


def session(*options):
    """Returns a session with a heapdbg of its own."""
    return Session.run(PROGRAM, "run", *options, stderr=subprocess.DEVNULL)


def canned(*lines):
    """Returns a session whose replies are these lines."""
    return Session(io.BytesIO("".join(line + "\n" for line in lines).encode()), io.BytesIO())


@contextlib.contextmanager
def file_of(text):
    """A file with this text, which its owner alone can read."""
    with tempfile.NamedTemporaryFile() as file:
        file.write(text)
        file.flush()
        yield file.name


def free_port():
    """Returns a port that was free."""
    with socket.socket() as free:
        free.bind(("127.0.0.1", 0))
        return free.getsockname()[1]


def connected(port, **words):
    """Returns a session with a server that may not listen yet."""
    for _ in range(200):
        with contextlib.suppress(ConnectionRefusedError):
            return Session.connect(port, timeout=10, **words)
        time.sleep(0.05)
    raise TimeoutError(f"nothing listens on {port}")


@contextlib.contextmanager
def staying(*options):
    """A server that stays, and its port. It is ended from outside."""
    port = free_port()
    words = [PROGRAM, "serve", "--port", str(port), "--stay", "1", *options]
    with subprocess.Popen(words, stdout=subprocess.DEVNULL) as server:
        try:
            yield port
        finally:
            server.terminate()


class Replies(unittest.TestCase):
    """Each line's reply as a value."""

    def test_classes_and_objects(self):
        with session() as heap:
            self.assertEqual(heap.define_class("Node", NODE), 0)
            self.assertEqual(heap.define_class("Pair", [("size", "int")], sup=0), 1)
            self.assertEqual(heap.define_array("[Node;"), 2)
            node = heap.new(0, 0, 0)
            self.assertEqual((node, str(node)), (ObjectId(0x10000000), "0x10000000"))
            self.assertEqual(heap.new_array(0, 1, 2, 5), 0x10002000)
            self.assertEqual(heap.new_values(0, 2, "int", 3), 0x10000020)
            self.assertIsNone(heap.store(0, 1, 4, 0))
            self.assertIsNone(heap.put(0, 0, 1, 7))
            self.assertEqual(heap.load(0, 3, 0, 1), 7)
            self.assertIsNone(heap.load(0, 3, 0, 0))
            loaded = heap.load(0, 3, 1, 4)
            self.assertIsInstance(loaded, ObjectId)
            self.assertEqual(loaded, node)
            self.assertIsNone(heap.move(1, 0, 0, 0))
            self.assertIsNone(heap.clear(1, 0))
            self.assertEqual(heap.rewind(2), 11)

    def test_a_cycle(self):
        with session() as heap:
            heap.define_class("Node", NODE)
            heap.new(0, 0, 0)
            heap.new(0, 1, 0)
            heap.store(0, 0, 0, 1)
            heap.new(0, 1, 0)
            heap.clear(0, 1)
            self.assertEqual(heap.snap(), 1)
            self.assertEqual(heap.mark(), 1)
            heap.store(0, 0, 0, 1)
            self.assertEqual(heap.drain(), 0)
            self.assertEqual(heap.mark(), 0)
            self.assertEqual(heap.finish(), 1)
            self.assertEqual(heap.sweep(0), Swept(1, False))

    def test_dumps(self):
        with session("--ids", "4") as heap:
            heap.define_class("Node", NODE)
            heap.new(0, 0, 0)
            whole = heap.dump()
            self.assertTrue(whole.startswith(b"JAVA PROFILE 1.0.2\0"))
            self.assertEqual(heap.open(), PinAt(2, 2))
            pieces = [heap.piece(2)]
            while not pieces[-1].last:
                pieces.append(heap.piece(2))
            self.assertEqual(b"".join(each.data for each in pieces), whole)
            self.assertEqual(heap.piece(2), Piece(b"", True))
            self.assertEqual(heap.dump(2), b"")
            heap.close(2)
            file = io.BytesIO()
            self.assertEqual(heap.dump_to(file), len(whole))
            self.assertEqual(file.getvalue(), whole)
            self.assertEqual(heap.open(1), PinAt(4, 1))

    def test_rows(self):
        heap = canned("row 0 next object 0x10000020", "row 1 v long 7", "row 2 x object null", "ok object Node 3", "ok reached", "ok older 4")
        rows = heap.show(None, 0x10000000)
        self.assertEqual(rows, [(0, "next", "object", 0x10000020), (1, "v", "long", 7), (2, "x", "object", None)])
        self.assertEqual(heap.dropped(0x10000000), ("reached",))
        self.assertEqual(heap.born(0x10000000), ("older", 4))
        self.assertEqual(heap.writer.getvalue(), b"show 0x10000000\ndropped 0x10000000\nborn 0x10000000\n")

    def test_some_slots(self):
        heap = canned("row 2 x object null", "ok object Node 3", "row 1 v long 7", "ok object Node 3", "ok object Node 3")
        self.assertEqual(heap.show(None, 0x10000000, first=2), [(2, "x", "object", None)])
        self.assertEqual(heap.show("@4", 0x10000000, 1, 1), [(1, "v", "long", 7)])
        self.assertEqual(heap.show(3, 0x10000000, count=0), [])
        asked = b"show 0x10000000 2 18446744073709551615\nshow @4 0x10000000 1 1\nshow 3 0x10000000 0 0\n"
        self.assertEqual(heap.writer.getvalue(), asked)

    def test_slots_along_fields(self):
        rows = "row 0 0 next object 0x10000020 Node", "row 1 0 next object null", "row 0 1 v long 7", "ok object Node 2"
        heap = canned("row 0 next object null", "ok object Node 1", *rows, "ok", "ok value 7", "ok", "ok object 0x10000040")
        self.assertEqual(heap.show(None, 0x10000000, along=("first", 2)), [(0, "next", "object", None)])
        tree = heap.tree("@4", 0x10000000, 1, along=["next"])
        self.assertEqual(tree, [(0, 0, "next", "object", 0x10000020, "Node"), (1, 0, "next", "object", None, None), (0, 1, "v", "long", 7, None)])
        heap.put(0, 1, "v", 7)
        self.assertEqual(heap.load(0, 2, 1, "v"), 7)
        heap.store(0, 1, "next", 2)
        heap.new_array(0, 3, "[Node;", 4)
        with self.assertRaises(BadCommand):
            heap.show(None, 8, along=["a.b"])
        asked = b"show 0x10000000.first.2\nshow @4 0x10000000.next 1\nput 0 1 v 7\nload 0 2 1 v\nstore 0 1 next 2\nnewarray 0 3 [Node; 4\n"
        self.assertEqual(heap.writer.getvalue(), asked)

    def test_classes_pins_and_collect(self):
        pins = "row 1 3 held 2", "row 4 9 lost Rewound", "row 5 7 lost Memory", "ok 3"
        heap = canned("row 0 Node - next:object v:long", "row 1 Nodes array", "ok 2", *pins, "ok condemned 3 swept 5")
        self.assertEqual(heap.classes("@3"), [(0, "Node", "-", "next:object", "v:long"), (1, "Nodes", "array")])
        lost = [(4, 9, "lost", "Rewound"), (5, 7, "lost", "Memory")]
        self.assertEqual(heap.pins(), [(1, 3, "held", 2), *lost])
        self.assertEqual(heap.collect(), Collected(condemned=3, swept=5))
        self.assertEqual(heap.writer.getvalue(), b"classes @3\npins\ncollect\n")


    def test_objects_cells_and_status(self):
        rows = "row 0x10000000 unreached 2", "row 0x10000020 Node 0 unreached", "ok 2", "row 0 256 - o.gx", "row 3 1024 sweep m", "ok 2"
        facts = "place 9", "retained 4", "phase marking", "gray 1", "undrained 2", "unswept 3", "regions 16", "acts 12"
        heap = canned(*rows, *(f"row {fact}" for fact in facts), "ok 8", "ok 0")
        objects = heap.objects(PinAt(2, 7))
        self.assertEqual(objects, [(0x10000000, "unreached", 2, False), (0x10000020, "Node", 0, True)])
        self.assertEqual(str(objects[1][0]), "0x10000020")
        self.assertEqual(heap.cells(), [Cells(0, 256, False, "o.gx"), Cells(3, 1024, True, "m")])
        told = heap.heap_status()
        self.assertEqual(told.pop("phase"), "marking")
        numbers = {"place": 9, "retained": 4, "gray": 1, "undrained": 2, "unswept": 3, "regions": 16, "acts": 12}
        self.assertEqual(told, numbers)
        self.assertEqual(heap.objects(), [])
        self.assertEqual(heap.writer.getvalue(), b"objects 2\ncells\nstatus\nobjects\n")

    def test_values(self):
        heap = canned("row null 3", "row 0x10000020 1", "ok 2", "row 7 2", "row 18446744073709551615 1", "ok 2", "ok 0")
        self.assertEqual(heap.values(None, 0, 1), [(None, 3), (0x10000020, 1)])
        self.assertEqual(heap.values(Place(7), 2, 0), [(7, 2), (2**64 - 1, 1)])
        self.assertEqual(heap.values(PinAt(2, 9), 1, 63), [])
        self.assertEqual(heap.writer.getvalue(), b"values 0 1\nvalues @7 2 0\nvalues 2 1 63\n")

    def test_names(self):
        heap = canned(*["ok 0"] * 4, "ok place 3", "row 5 0 7", "ok 1")
        self.assertEqual((heap.objects(None, "a/B"), heap.objects(None, "a/B", "next", None)), ([], []))
        self.assertEqual((heap.values(Place(3), "a/B", "next"), heap.writes("a/B", 1)), ([], []))
        self.assertEqual((heap.wrote(16, "next"), heap.watch(16, "next")), (("place", 3), [(5, 0, 7)]))
        lines = b"objects a/B", b"objects a/B next null", b"values @3 a/B next", b"writes a/B 1", b"wrote 0x00000010 next", b"watch 0x00000010 next"
        self.assertEqual(heap.writer.getvalue(), b"".join(line + b"\n" for line in lines))
        for call in (lambda: heap.values(None, "a b", 0), lambda: heap.writes(0, ""), lambda: heap.wrote(16, "x\n")):
            self.assertRaises(BadCommand, call)

    def test_kept(self):
        heap = canned("row 3 48 Node", "ok 3 48", "ok 0 0")
        self.assertEqual((heap.kept(Place(7)), heap.kept(1, PinAt(2, 9))), ([(3, 48, "Node")], []))
        self.assertEqual(heap.writer.getvalue(), b"kept @7 -\nkept 1 2\n")

    def test_kept_of_a_heap(self):
        with session("--questions", "1") as heap:
            heap.define_class("Node", NODE)
            heap.new(0, 0, 0)
            self.assertEqual([(row.objects, row.class_name) for row in heap.kept("@1")], [(1, "Node")])
            self.assertEqual((heap.kept("@2"), heap.kept("@1", "@1")), ([], []))

    def test_diff(self):
        rows = "row 0x10000000 gone", "row 0x10000020 made", "row 0x10000040 1 7 8", "row 0x10000060 0 null 0x10000020"
        heap = canned(*rows, "ok 4", "ok 0")
        gone, made, value, reference = heap.diff(Place(7))
        self.assertEqual((gone, made), ((0x10000000, "gone"), (0x10000020, "made")))
        self.assertEqual((gone.id, made.change), (0x10000000, "made"))
        self.assertEqual((value.id, value.slot, value.old, value.new), (0x10000040, 1, 7, 8))
        self.assertEqual(reference, (0x10000060, 0, None, 0x10000020))
        self.assertEqual(heap.diff(1, PinAt(2, 9)), [])
        self.assertEqual(heap.writer.getvalue(), b"diff @7 -\ndiff 1 2\n")

    def test_diff_of_a_heap(self):
        with session("--questions", "1") as heap:
            heap.define_class("Node", NODE)
            first = heap.new(0, 0, 0)
            second = heap.new(0, 1, 0)
            heap.store(0, 0, 0, 1)
            self.assertEqual(heap.diff("@2"), [(first, 0, None, second), (second, "made")])
            self.assertEqual((heap.diff("@3", "@2"), heap.diff("@4", "@4")), ([(second, "gone")], []))

    def test_dominators_of_an_object(self):
        heap = canned("row 0x10000020 1 16 Node", "ok 1", "ok 0", "ok 0")
        self.assertEqual(heap.dominators(of=0x10000000), [(0x10000020, 1, 16, "Node")])
        self.assertEqual((heap.dominators(Pin(1), of=16), heap.dominators(Place(7), 3, 0x10000000)), ([], []))
        self.assertEqual(heap.writer.getvalue(), b"dominators 0x10000000\ndominators 1 0x00000010\ndominators @7 0x10000000 3\n")

    def test_regions(self):
        heap = canned("row 0 4 5 3 2 waits", "row 7 64 1 1 0 -", "ok 2", "ok 0", "ok 0", "no 24 NotRetained")
        rows = heap.regions()
        self.assertEqual(rows, [RegionRow(0, 4, 5, 3, 2, True), RegionRow(7, 64, 1, 1, 0, False)])
        self.assertEqual((rows[0].dead, rows[1].waits, heap.regions()), (2, False, []))
        self.assertEqual(heap.regions(Place(9)), [])
        with self.assertRaises(Refused):
            heap.regions(Pin(1))
        self.assertEqual(heap.writer.getvalue(), b"regions\nregions\nregions @9\nregions 1\n")
        self.assertEqual([row.taken for row in rows], [range(0, 1), range(7, 8)])
        self.assertEqual(RegionRow(12, 3072, 1, 1, 0, False).taken, range(12, 15))

    def test_life(self):
        heap = canned("row Node older 7 9", "row long[] 12 - -", "row Node older older -", "ok 3", "ok 0")
        rows = heap.life(0x10000000)
        self.assertEqual(rows, [("Node", "older", 7, 9), ("long[]", 12, None, None), ("Node", "older", "older", None)])
        self.assertEqual((rows[0].class_name, rows[1].born, rows[0].lost, rows[0].swept), ("Node", 12, 7, 9))
        self.assertEqual((heap.life(16), heap.writer.getvalue()), ([], b"life 0x10000000\nlife 0x00000010\n"))

    def test_life_of_a_heap(self):
        with session("--questions", "1") as heap:
            heap.define_class("Node", NODE)
            heap.new(0, 0, 0)
            lost = heap.new(0, 1, 0)
            heap.clear(0, 1)
            heap.collect()
            self.assertEqual(heap.life(heap.new(0, 1, 0)), [("Node", 3, 4, 8), ("Node", 9, None, None)])
            self.assertEqual([row.born for row in heap.life(lost)], [3, 9])

    def test_forward(self):
        heap = canned("ok place 7", "ok place 9", "no 29 NothingToRedo 3 1")
        self.assertEqual((heap.forward(2), heap.forward(Place(9))), (7, 9))
        with self.assertRaises(Refused) as raised:
            heap.forward(3)
        self.assertEqual((raised.exception.facts.asked, raised.exception.facts.left), (3, 1))
        self.assertEqual(heap.writer.getvalue(), b"forward 2\nforward @9\nforward 3\n")

    def test_cycles(self):
        heap = canned("row 9 2 2", "row 17 3 0", "ok 2", "ok 0")
        rows = heap.cycles()
        self.assertEqual(rows, [(9, 2, 2), (17, 3, 0)])
        self.assertEqual((rows[1].place, rows[1].condemned, rows[1].swept, heap.cycles()), (17, 3, 0, []))
        self.assertEqual(heap.writer.getvalue(), b"cycles\ncycles\n")

    def test_cycles_of_a_heap(self):
        with session("--questions", "1") as heap:
            heap.define_class("Node", NODE)
            heap.new(0, 0, 0)
            heap.new(0, 0, 0)
            heap.collect()
            heap.snap()
            heap.mark()
            self.assertEqual(heap.cycles(), [EndedCycle(6, 1, 1)])
            heap.finish()
            self.assertEqual(heap.cycles(), [EndedCycle(6, 1, 1), EndedCycle(10, 0, 0)])

    def test_regions_of_a_heap(self):
        with session("--questions", "1") as heap:
            heap.define_class("Node", NODE)
            heap.new(0, 0, 0)
            heap.new(0, 0, 0)
            heap.new_values(0, 1, "byte", 20)
            self.assertEqual(heap.regions(), [RegionRow(0, 4, 2, 2, 0, False), RegionRow(1, 64, 1, 1, 0, False)])
            self.assertEqual(heap.regions("@2"), [RegionRow(0, 4, 1, 1, 0, False)])

    def test_objects_cells_and_status_of_a_heap(self):
        with session("--questions", "1", "--regions", "2") as heap:
            heap.define_class("Node", NODE)
            first = heap.new(0, 0, 0)
            second = heap.new(0, 0, 0)
            heap.snap()
            self.assertEqual(heap.objects(), [(first, "Node", 2, True), (second, "Node", 2, False)])
            self.assertEqual(heap.objects("@2"), [(first, "Node", 2, False)])
            self.assertEqual(heap.cells(), [Cells(0, 4, False, "og" + "." * 254)])
            status = {"place": 4, "retained": 4, "phase": "marking", "gray": 1, "undrained": 0, "unswept": 0, "regions": 2}
            self.assertEqual(heap.heap_status(), status)


class Columns(unittest.TestCase):
    """Rows, moments and facts by their names."""

    def asked(self, call, *lines):
        """Returns what a call gives of a session whose reply is this one."""
        return call(canned(*lines))

    def test_counts(self):
        (row,) = self.asked(lambda heap: heap.histogram(), "row 3 48 Node", "ok 3 48")
        self.assertEqual((row.objects, row.bytes, row.class_name), (3, 48, "Node"))
        (row,) = self.asked(lambda heap: heap.garbage(), "row 3 48 Node", "ok 3 48")
        self.assertEqual((row.objects, row.bytes, row.class_name), (3, 48, "Node"))
        (row,) = self.asked(lambda heap: heap.retained(None, 16), "row 3 48 Node", "ok 3 48")
        self.assertEqual((row.objects, row.bytes, row.class_name), (3, 48, "Node"))
        (row,) = self.asked(lambda heap: heap.dominators(Pin(1), 5), "row 0x00000010 3 48 0x7", "ok 1")
        self.assertEqual((row.id, row.objects, row.bytes, row.class_name), (16, 3, 48, "0x7"))
        (row,) = self.asked(lambda heap: heap.dominator(None, 32), "row 0x00000010 null", "ok 1")
        self.assertEqual((row.id, row.class_name), (16, "null"))
        (row,) = self.asked(lambda heap: heap.growth(Place(1)), "row Node 1 16 2 32", "ok 1")
        self.assertEqual((row.class_name, row.old_objects, row.old_bytes, row.new_objects, row.new_bytes), ("Node", 1, 16, 2, 32))

    def test_ways(self):
        first, step = self.asked(lambda heap: heap.path(None, 16), "row 1 2 0x00000008", "row 0x00000008 3 0x00000010", "ok 1")
        self.assertEqual((first.mutator, first.register, first.id), (1, 2, 8))
        self.assertEqual((step.holder, step.slot, step.id), (8, 3, 16))
        rows = "row 0 1 0x00000010", "row 1 2 0x00000008", "row 0x00000008 3 0x00000010", "row 1 2 0x00000008", "row 0x00000008 4 0x00000010"
        first, second, third = self.asked(lambda heap: heap.paths(None, 16, 3), *rows, "ok 3")
        self.assertEqual(first, [(0, 1, 16)])
        self.assertEqual(second, [(1, 2, 8), (8, 3, 16)])
        self.assertEqual((third[0].register, third[1].slot, third[1].id), (2, 4, 16))
        value, reference = self.asked(lambda heap: heap.watch(16, 1), "row 3 0 7", "row 5 null 0x00000008", "ok 2")
        self.assertEqual((value.place, value.old, value.new), (3, 0, 7))
        self.assertEqual((reference.place, reference.old, reference.new), (5, None, 8))
        value, reference = self.asked(lambda heap: heap.writes(0, 1), "row 3 0x00000008 0 7", "row 5 0x00000010 null 0x00000008", "ok 2")
        self.assertEqual((value.place, value.id, value.old, value.new), (3, 8, 0, 7))
        self.assertEqual((reference.place, reference.id, reference.old, reference.new), (5, 16, None, 8))
        value, reference = self.asked(lambda heap: heap.values(None, 0, 1), "row 7 2", "row 0x00000008 1", "ok 2")
        self.assertEqual((value.value, value.objects, reference.value, reference.objects), (7, 2, 8, 1))
        first, slot = self.asked(lambda heap: heap.referrers(None, 16), "row 1 2", "row 0x00000008 3", "ok 2")
        self.assertEqual((first.mutator, first.register, slot.holder, slot.slot), (1, 2, 8, 3))
        null, named = self.asked(lambda heap: heap.registers(), "row 0 0 null", "row 0 1 0x00000008 Node", "ok 2")
        self.assertEqual((null.register, null.id, null.class_name), (0, None, None))
        self.assertEqual((named.mutator, named.register, named.id, named.class_name), (0, 1, 8, "Node"))

    def test_classes_and_objects(self):
        node, array = self.asked(lambda heap: heap.classes(), "row 0 Node - next:object v:long", "row 1 Nodes array", "ok 2")
        self.assertEqual((node.number, node.name, node.sup), (0, "Node", "-"))
        self.assertEqual(node.fields, [("next", "object"), ("v", "long")])
        self.assertEqual(node.fields[1], Field(name="v", kind="long"))
        self.assertEqual((array.name, array.sup, array.fields), ("Nodes", "array", []))
        (row,) = self.asked(lambda heap: heap.objects(), "row 0x00000008 Node 2 unreached", "ok 1")
        self.assertEqual((row.id, row.class_name, row.slots, row.unreached), (8, "Node", 2, True))
        (row,) = self.asked(lambda heap: heap.show(None, 8), "row 1 v long 7", "ok object Node 2")
        self.assertEqual((row.slot, row.name, row.kind, row.value), (1, "v", "long", 7))

    def test_the_past(self):
        (row,) = self.asked(lambda heap: heap.history(1), "row 9 put 0x00000008 1 7 9", "ok 1")
        self.assertEqual((row.place, row.record, row.facts), (9, "put", (8, 1, 7, 9)))
        (row,) = self.asked(lambda heap: heap.history(1), "row 9 new 0x00000008 0 1 null 0x10", "ok 1")
        self.assertEqual(row.facts, (8, 0, 1, None, "0x10"))
        found, older, reached = (self.asked(lambda heap: heap.dropped(8), f"ok {text}") for text in ("place 3", "older 4", "reached"))
        self.assertEqual([(each.word, each.place) for each in (found, older, reached)], [("place", 3), ("older", 4), ("reached", None)])
        (place, never) = (self.asked(lambda heap: heap.when(0, 1, 7), f"ok {text}") for text in ("place 3", "never"))
        self.assertEqual([(each.word, each.place) for each in (place, never)], [("place", 3), ("never", None)])
        held, lost = self.asked(lambda heap: heap.pins(), "row 1 3 held 2", "row 4 9 lost Rewound", "ok 2")
        self.assertEqual((held.pin, held.place, held.state, held.pieces), (1, 3, "held", 2))
        self.assertEqual((lost.pin, lost.place, lost.state, lost.cause), (4, 9, "lost", "Rewound"))

    def test_moments(self):
        moments = (Now(), Place(816), Pin(1), PinAt(2, 7), None, 3, "@4")
        self.assertNotEqual(Place(3), Pin(3))
        heap = canned(*["ok 0 0"] * 7, *["ok 0"] * 2, "ok pin 1 at 5", "ok pin 2 at 5", "ok dump 0", "ok dump 0", "ok last 0", "ok")
        for moment in moments:
            heap.histogram(moment)
        heap.growth(Place(1), Now())
        heap.growth(Pin(1))
        self.assertEqual((heap.open(Place(5)), heap.open(Now())), ((1, 5), (2, 5)))
        heap.dump(Pin(1))
        heap.dump(Now())
        heap.piece(PinAt(2, 5))
        heap.close(Pin(2))
        words = [line.partition(" ")[2] for line in heap.writer.getvalue().decode().splitlines()]
        self.assertEqual(words, ["-", "@816", "1", "2", "", "3", "@4", "@1 -", "1 -", "@5", "-", "1", "-", "2", "2"])

    def test_places_with_names(self):
        told = [*["ok place 7"] * 2, "ok 0", "ok 0 0", "ok 0", "ok place 9", *["ok 0"] * 3, "ok pin 1 at 7", "ok place 7", "no 30 NameLimit"]
        heap = canned(*told)
        self.assertEqual((heap.name("start"), heap.at(Named("start"))), (7, 7))
        self.assertEqual((heap.growth(), heap.kept(), heap.diff(), heap.at()), ([], [], [], 9))
        self.assertEqual((heap.growth(Named("start")), heap.history(3), heap.objects(None, 0)), ([], [], []))
        self.assertEqual((heap.open(Named("start")), heap.rewind(Named("start"))), ((1, 7), 7))
        self.assertRaises(Refused, lambda: heap.name("one.more"))
        self.assertRaises(BadCommand, lambda: heap.name("two words"))
        lines = [b"name start", b"at @start", b"growth", b"kept", b"diff", b"at -", b"growth @start -", b"history 3", b"objects - 0"]
        lines += [b"open @start", b"rewind @start", b"name one.more"]
        self.assertEqual(heap.writer.getvalue(), b"".join(line + b"\n" for line in lines))

    def test_files(self):
        heap = canned("ok 301", "ok 301", "ok 9000", "no 31 NoFile", "ok 8000", "bad command")
        self.assertEqual((heap.write_dump("a.hprof"), heap.write_dump(pathlib.Path("/b"), Place(3)), heap.write_picture("c.svg")), (301, 301, 9000))
        with self.assertRaises(Refused) as refused:
            heap.write_picture("c.svg")
        self.assertEqual((refused.exception.number, refused.exception.name), (31, "NoFile"))
        self.assertEqual(heap.write_picture("d.svg", Place(3)), 8000)
        with self.assertRaises(BadCommand) as bad:
            heap.write_dump("a", Now())
        self.assertIn("explore writes files", str(bad.exception))
        self.assertRaises(BadCommand, lambda: heap.write_dump("two words"))
        lines = b"write a.hprof", b"write @3 /b", b"draw c.svg", b"draw c.svg", b"draw @3 d.svg", b"write - a"
        self.assertEqual(heap.writer.getvalue(), b"".join(line + b"\n" for line in lines))

    def test_facts(self):
        texts = "no 18 NotDone 2 1", "no 19 SweepPending 3", "no 20 NothingToSweep 9", "no 21 TooFar 5 4", "no 23 Lost Rewound", "no 2 NoClass"
        facts = []
        for text in texts:
            with self.assertRaises(Refused) as caught:
                canned(text).snap()
            facts.append(caught.exception.facts)
        self.assertEqual((facts[0].gray, facts[0].undrained, facts[1].region, facts[2].region), (2, 1, 3, 9))
        self.assertEqual((facts[3].asked, facts[3].retained, facts[4].cause, facts[5]), (5, 4, "Rewound", ()))
        with self.assertRaises(Refused) as caught:
            canned("no 18 NotDone 2 1 7").snap()
        self.assertEqual(caught.exception.facts, (2, 1, 7))


class Explored(unittest.TestCase):
    """`Session.explore`: its options are those of the program."""

    def test_options(self):
        with tempfile.TemporaryDirectory() as folder:
            path = pathlib.Path(folder, "first.session")
            path.write_text("class Node - next:object v:long\nnew 0 0 0\nnew 15 0 0\nnew 9 9 9\n")
            with Session.explore(PROGRAM, regions=3, mutators=16, keep=2, time=5, ids=4, load=path) as heap:
                status = heap.heap_status()
                self.assertEqual((status["regions"], status["retained"], status["place"]), (3, 2, 3))
                self.assertEqual(len(heap.registers()), 128)
                dump = heap.dump()
                self.assertEqual((dump[19:23], dump[23:31]), (b"\0\0\0\4", b"\0" * 7 + b"\5"))
            self.assertEqual((heap.status, heap.text), (0, f"heapdbg: {path}:4: no 7 BadRegister: new 9 9 9"))

    def test_a_heap_dump(self):
        with tempfile.TemporaryDirectory() as folder:
            path = pathlib.Path(folder, "heap.hprof")
            with Session.explore(PROGRAM, ids=4) as heap:
                heap.define_array("Kept")
                heap.new_array(0, 0, 0, 3)
                path.write_bytes(heap.dump())
            with Session.explore(PROGRAM, hprof=path) as heap:
                names = [row.name for row in heap.classes()]
                self.assertIn("Kept", names)
                self.assertEqual(len(heap.objects(of_class=names.index("Kept"))), 1)
            self.assertEqual((heap.status, heap.text), (0, f"heapdbg: {path}: 1 root of what isn't made"))

    def test_written_files(self):
        with tempfile.TemporaryDirectory() as folder, Session.explore(PROGRAM) as heap:
            dump, picture = pathlib.Path(folder, "heap.hprof"), pathlib.Path(folder, "heap.svg")
            heap.define_array("Kept")
            heap.new_array(0, 0, 0, 3)
            first = heap.dump(heap.open(Place(1)))
            self.assertEqual((heap.write_dump(dump, Place(1)), dump.read_bytes()), (len(first), first))
            self.assertEqual((heap.write_picture(picture), picture.read_bytes()[:4]), (picture.stat().st_size, b"<svg"))
            with self.assertRaises(Refused) as caught:
                heap.write_dump(dump)
            self.assertEqual((caught.exception.number, dump.read_bytes()), (31, first))

    def test_a_wide_heap(self):
        for wide in (False, True):
            with Session.explore(PROGRAM, wide=wide) as heap:
                for number in range(256):
                    heap.define_array(f"A{number}")
                if wide:
                    self.assertEqual(heap.define_array("A256"), 256)
                else:
                    with self.assertRaises(Refused) as caught:
                        heap.define_array("A256")
                    self.assertEqual(caught.exception.number, 3)

    def test_an_area(self):
        with Session.explore(PROGRAM, wide=True, regions=4, area=3) as heap:
            self.assertEqual(heap.new_values(0, 0, "byte", 3000), 0x10002000)
            with self.assertRaises(Refused) as caught:
                heap.new_values(0, 1, "byte", 1025)
            self.assertEqual(caught.exception.number, 13)

    def test_a_page(self):
        port = free_port()
        with Session.explore(PROGRAM, page=port) as heap:
            self.assertEqual(heap.heap_status()["place"], 0)
            self.assertRegex(heap.text, rf"^heapdbg: page http://127.0.0.1:{port}/#[0-9a-f]{{32}}$")
            said = heap.text
        self.assertEqual((heap.text, heap.status), (said, 0))

    def test_mistakes(self):
        heap = Session.explore(PROGRAM, keep=0)
        with self.assertRaises(Ended) as caught:
            heap.snap()
        self.assertEqual(caught.exception.status, 2)
        self.assertIn("--keep", caught.exception.text)
        heap.end()


class Counted(io.BytesIO):
    """A stream that counts what is written to it."""

    count = 0

    def write(self, text):
        self.count += 1
        return super().write(text)


class Batched(unittest.TestCase):
    """Sessions that don't wait for replies that say only `ok`."""

    def test_few_writes(self):
        heap = Session(io.BytesIO(b"ok\n" * 10_000), Counted(), batched=True)
        for number in range(10_000):
            self.assertIsNone(heap.put(0, 0, 1, number))
        heap.flush()
        self.assertEqual(heap.writer.getvalue(), b"".join(b"put 0 0 1 %d\n" % number for number in range(10_000)))
        self.assertLess(heap.writer.count, 20)

    def test_order(self):
        with Session.explore(PROGRAM) as heap:
            heap.define_class("Node", NODE)
            node = heap.new(0, 0, 0)
            for number in range(5_000):
                heap.put(0, 0, 1, number)
            self.assertEqual(heap.load(0, 1, 0, 1), 4_999)
            heap.move(0, 1, 0, 0)
            heap.store(0, 1, 0, 0)
            heap.clear(0, 0)
            pin = heap.open()
            heap.close(pin)
            self.assertEqual(heap.path(None, node), [(0, 1, node)])
            self.assertEqual([row.value for row in heap.show(None, node)], [node, 4_999])
            self.assertEqual(heap.pins(), [])
            heap.put(0, 1, 1, 6)
            with heap.batch() as batch:
                value = batch.load(0, 2, 1, 1)
                batch.put(0, 1, 1, 8)
            self.assertEqual((value.value, heap.load(0, 2, 1, 1)), (6, 8))

    def test_refusals_come_with_the_next_call_that_waits(self):
        with Session.explore(PROGRAM) as heap:
            heap.define_class("Node", NODE)
            heap.new(0, 0, 0)
            heap.put(0, 0, 5, 1)
            heap.put(0, 0, 1, 7)
            heap.clear(9, 0)
            heap.put(0, 0, 1, "8\n")
            place = 3
            with self.assertRaises(Refused) as caught:
                heap.new(0, 1, 0)
            fault = caught.exception
            self.assertEqual((fault.line, fault.number, fault.name), ("put 0 0 5 1", 9, "BadSlot"))
            told = [fault.line for fault in sorted(fault.others, key=lambda fault: fault.line)]
            self.assertEqual(told, ["clear 9 0", "put 0 0 1 8\n"])
            self.assertEqual(heap.heap_status()["place"], place)
            self.assertEqual(heap.load(0, 2, 0, 1), 7)

    def test_refusals_come_with_flush_and_with_the_end(self):
        heap = Session.explore(PROGRAM)
        heap.clear(9, 1)
        with self.assertRaisesRegex(Refused, "clear 9 1: 7 BadRegister"):
            heap.flush()
        heap.flush()
        heap.clear(9, 2)
        with self.assertRaisesRegex(Refused, "clear 9 2"):
            heap.end()
        self.assertEqual(heap.status, 0)
        with self.assertRaisesRegex(Refused, "clear 9 3"):
            with Session.explore(PROGRAM) as heap:
                heap.clear(9, 3)
        self.assertEqual(heap.status, 0)
        with self.assertRaises(KeyError):
            with Session.explore(PROGRAM) as heap:
                heap.clear(9, 3)
                raise KeyError
        self.assertEqual(heap.status, 0)

    def test_many_refusals(self):
        with Session.explore(PROGRAM) as heap:
            for number in range(3_000):
                heap.clear(9, number)
            with self.assertRaisesRegex(Refused, "clear 9 0") as caught:
                heap.flush()
            self.assertEqual([fault.line for fault in caught.exception.others], [f"clear 9 {number}" for number in range(1, 100)])
            self.assertEqual(heap.heap_status()["place"], 0)

    def test_tell(self):
        with session() as heap:
            for line in ("class Node - v:long", "new 0 0 0", "what", "load 0 1 0 0", "dump -", "snap"):
                self.assertIsNone(heap.tell(line))
            for line in ("end", "# a", "", "a\nb"):
                with self.assertRaises(BadCommand):
                    heap.tell(line)
            with self.assertRaises(BadCommand) as caught:
                heap.mark()
            self.assertEqual((caught.exception.line, caught.exception.others), ("what", ()))
            self.assertEqual(heap.mark(), 0)

    def test_a_session_that_ended(self):
        heap = Session.explore(PROGRAM, batched=True)
        heap.tell("clear 0 0" + " " * 4096)
        with self.assertRaises(Ended):
            for _ in range(100_000):
                heap.clear(0, 0)
        self.assertEqual((heap.status, heap.text), (1, "heapdbg: long"))
        with self.assertRaises(Ended):
            heap.snap()
        self.assertEqual(heap.end(), 1)

    def test_others_wait(self):
        with session() as heap:
            heap.define_class("Node", NODE)
            heap.new(0, 0, 0)
            with self.assertRaisesRegex(Refused, "put 0 0 5 1"):
                heap.put(0, 0, 5, 1)


class Installs(unittest.TestCase):
    """`pip install` of this folder."""

    def test_pip(self):
        with tempfile.TemporaryDirectory() as folder:
            shutil.copytree(HERE, pathlib.Path(folder, "python"), ignore=shutil.ignore_patterns("__pycache__"))
            there = pathlib.Path(folder, "there")
            words = [sys.executable, "-m", "pip", "install", "--quiet", "--no-index", "--target", there, pathlib.Path(folder, "python")]
            if subprocess.run([sys.executable, "-m", "pip", "--version"], capture_output=True).returncode:
                return
            ran = subprocess.run(words, capture_output=True, text=True)
            self.assertEqual(ran.returncode, 0, ran.stderr)
            code = "import heapdbg; print(heapdbg.__file__); heapdbg.Session, heapdbg.Recorder"
            ran = subprocess.run([sys.executable, "-c", code], cwd=folder, env={**os.environ, "PYTHONPATH": str(there)}, capture_output=True, text=True)
            self.assertEqual(ran.stdout.strip(), str(there / "heapdbg/__init__.py"), ran.stderr)
            self.assertTrue((there / "heapdbg/py.typed").exists())
            version = re.search(r'^version = "(.*)"', (HERE / "pyproject.toml").read_text(), re.MULTILINE)[1]
            self.assertTrue((there / f"heapdbg-{version}.dist-info").is_dir())


class Names(unittest.TestCase):
    """Names that look like numbers, ids or null."""

    # Each is a legal name of a class, and of a field.
    ODD = ("null", "2024", "0xyz", "0x10000000", "array", "object", "row", "ok")

    def test_rows(self):
        with session("--questions", "1") as heap:
            for number, name in enumerate(self.ODD):
                self.assertEqual(heap.define_class(name, [(name, "int"), ("null", "object")][: 2 - (name == "null")]), number)
            ids = [heap.new(0, number, number) for number in range(len(self.ODD))]
            sizes = [4 if name == "null" else 12 for name in self.ODD]
            rows = sorted((1, size, name) for name, size in zip(self.ODD, sizes))
            self.assertEqual(sorted(heap.histogram()), rows)
            self.assertEqual(heap.registers()[:8], [(0, r, ids[r], name) for r, name in enumerate(self.ODD)])
            self.assertEqual(heap.registers()[8], (1, 0, None))
            fields = [(f"{name}:int", "null:object")[: 2 - (name == "null")] for name in self.ODD]
            self.assertEqual(heap.classes(), [(n, name, "-", *fields[n]) for n, name in enumerate(self.ODD)])
            self.assertEqual(heap.show(None, ids[1]), [(0, "2024", "int", 0), (1, "null", "object", None)])
            grown = [(name, 0, 0, 1, size) for name, size in zip(self.ODD, sizes)]
            self.assertEqual(heap.growth("@8", None), grown)
            heap.clear(0, 2)
            self.assertEqual(heap.garbage(), [(1, 12, "0xyz")])
            self.assertEqual((heap.retained(None, ids[2]), heap.retained("@16", ids[2])), ([], [(1, 12, "0xyz")]))
            self.assertEqual(heap.history(1), [(17, "reg", 0, 2, ids[2], None)])
            self.assertEqual(heap.history(1, Place(16)), [(16, "new", ids[7], 0, 7, None, self.ODD[7])])
            self.assertEqual(heap.objects(None, 2), [(ids[2], "0xyz", 2, True)])
            self.assertEqual(heap.objects(Place(16), 2, 0, 0), [(ids[2], "0xyz", 2, False)])
            self.assertEqual([heap.objects(None, 2, 0, value) for value in (1, ids[3])], [[], []])
            self.assertEqual(heap.path(None, ids[3]), [(0, 3, ids[3])])
            self.assertEqual(heap.referrers(None, ids[3]), [(0, 3)])
            with self.assertRaises(Refused) as caught:
                heap.path(None, ids[2])
            self.assertEqual((caught.exception.number, caught.exception.name), (27, "Unreachable"))

    def test_elements_supers_and_moments(self):
        with session("--questions", "1") as heap:
            heap.define_class("null", [("next", "object")])
            heap.define_class("2024", sup="null")
            heap.define_array("[null;")
            self.assertEqual(heap.classes()[1:], [(1, "2024", 0), (2, "[null;", "array")])
            array = heap.new_array(0, 0, 2, 2)
            node = heap.new(0, 1, 1)
            heap.store(0, 0, 1, 1)
            self.assertEqual(heap.show(None, array), [(0, "0", "object", None), (1, "1", "object", node)])
            self.assertEqual(heap.show(None, array, first=1), [(1, "1", "object", node)])
            self.assertEqual(heap.show("@6", array, count=1), [(0, "0", "object", None)])
            self.assertEqual(heap.show(None, array, along=[1]), heap.show(None, node))
            self.assertEqual(heap.tree(None, array, 0), [(0, 0, "0", "object", None, None), (0, 1, "1", "object", node, "2024")])
            self.assertEqual(heap.tree("@6", array, 1)[2:], [(1, 0, "next", "object", None, None)])
            self.assertEqual(heap.load(0, 2, 1, "next"), None)
            self.assertEqual(heap.path("@6", node), [(0, 1, node)])
            self.assertEqual(heap.referrers(heap.open(), node), [(0, 1), (array, 1)])
            self.assertEqual((heap.born(node), heap.wrote(array, 1)), (("place", 5), ("place", 6)))
            self.assertEqual((heap.watch(array, 1), heap.watch(array, 0)), ([(6, None, node)], []))
            self.assertEqual((heap.writes(2, 1), heap.writes(2, 0)), ([(6, array, None, node)], []))
            self.assertEqual((heap.wrote(array, 1, Place(6)), heap.born(node, Place(5))), (("place", 6), ("place", 5)))
            self.assertEqual((heap.watch(array, 1, Place(5)), heap.dropped(node, Place(5))), ([], ("reached",)))
            self.assertEqual((heap.writes(2, 1, Place(5)), heap.writes(2, 1, Place(0), Place(5))), ([(6, array, None, node)], []))
            self.assertEqual((heap.when(2, 1, node), heap.when("[null;", 1, None)), (("place", 6), ("place", 4)))
            self.assertEqual((heap.when(2, 1, None, Place(6)), heap.when(2, 1, node, Place(5), Place(4))), (("never",), ("never",)))
            self.assertEqual((heap.when_count("[null;", 1), heap.when_count(2, 1, Place(5))), (("place", 4), ("place", 5)))
            self.assertEqual((heap.when_count(2, 2), heap.when_count(2, 1, Place(3), Place(2))), (("never",), ("never",)))
            self.assertEqual((heap.values(None, 2, 1), heap.values("@5", 2, 1), heap.values(None, 2, 9)), ([(node, 1)], [(None, 1)], []))
            self.assertEqual((heap.retained(None, array), heap.retained(None, node)), ([(1, 16, "[null;")], [(1, 8, "2024")]))
            heap.clear(0, 1)
            self.assertEqual(heap.path(None, node), [(0, 0, array), (array, 1, node)])
            self.assertEqual(heap.paths(None, node, 1), [[(0, 0, array), (array, 1, node)]])
            self.assertEqual(heap.retained(None, array), [(1, 16, "[null;"), (1, 8, "2024")])
            self.assertEqual(heap.retained("@6", array), [(1, 16, "[null;")])

    def test_all_is_public(self):
        self.assertEqual([name for name in ("Collected", *heapdbg.__all__) if name not in dir(heapdbg)], [])
        self.assertIn("Collected", heapdbg.__all__)
        self.assertEqual(len(set(heapdbg.__all__)), len(heapdbg.__all__))


class Texts(unittest.TestCase):
    """Texts that would be another line than they are taken for."""

    def test_more_lines_than_one(self):
        with session("--questions", "1") as heap:
            for text in ("a\nb", "a\rb", "a\r\n", "\n", "a\x00b", "a\tb", "\x7f", "\xe4"):
                for call in (lambda: heap.say(text), lambda: heap.define_array(text), lambda: heap.define_class(text), lambda: heap.open(text),
                             lambda: heap.define_class("C", [(text, "int")]), lambda: heap.define_class("C", [("x", text)]),
                             lambda: heap.histogram(text), lambda: heap.new_values(0, 0, text, 1), lambda: heap.dump(text)):
                    with self.assertRaises(BadCommand):
                        call()
            with self.assertRaises(BadCommand):
                heap.say("histogram -\nhistogram -")
            self.assertEqual(heap.define_class("C"), 0)
            self.assertEqual(heap.pins(), [])

    def test_more_words_than_one(self):
        with session() as heap:
            for call in (lambda: heap.define_array("A B"), lambda: heap.define_class("A -"), lambda: heap.define_class(""),
                         lambda: heap.define_class("A", [("x", "int y:int")]), lambda: heap.new_values(0, 0, "int 7", 1)):
                with self.assertRaises(BadCommand):
                    call()
            self.assertEqual(heap.define_class("C"), 0)

    def test_in_a_batch(self):
        with session() as heap:
            with heap.batch() as batch:
                for text in ("a\nb", "a\r", "", "# a", "end"):
                    with self.assertRaises(BadCommand):
                        batch.send(text, lambda words, lines: None)
                number = batch.define_class("C")
            self.assertEqual(number.value, 0)

    def test_a_question_without_questions(self):
        with session() as heap:
            with self.assertRaisesRegex(BadCommand, "--questions 1"):
                heap.histogram()
            with self.assertRaises(BadCommand) as caught:
                heap.say("what")
            self.assertNotIn("--questions", str(caught.exception))
            self.assertEqual(caught.exception.line, "what")


class Refusals(unittest.TestCase):
    """Each refusal, with its number, its name and its facts."""

    def refused(self, number, name, *facts):
        """Returns what looks that a call is refused so."""

        class Look:
            def __enter__(look):
                return look

            def __exit__(look, kind, fault, _trace):
                self.assertIs(kind, Refused)
                self.assertEqual((fault.number, fault.name, fault.facts), (number, name, facts))
                return True

        return Look()

    def test_classes(self):
        with session() as heap:
            with self.refused(2, "NoClass"):
                heap.new(0, 0, 0)
            with self.refused(4, "BadName"):
                heap.define_class("a+b")
            with self.refused(6, "FieldLimit"):
                heap.define_class("Wide", [(f"f{n}", "int") for n in range(65)])
            for number in range(256):
                heap.define_class(f"c{number}")
            with self.refused(3, "ClassLimit"):
                heap.define_array("late")
            heap.rewind(1)
            with self.refused(5, "DuplicateName"):
                heap.define_array("c0")

    def test_objects(self):
        with session("--regions", "1") as heap:
            heap.define_class("Node", NODE)
            with self.refused(7, "BadRegister"):
                heap.new(2, 0, 0)
            with self.refused(8, "NullRegister"):
                heap.load(0, 0, 0, 0)
            with self.refused(12, "TooLarge"):
                heap.new_values(0, 0, "int", 1025)
            with self.refused(10, "WrongKind"):
                heap.new_values(0, 0, "object", 1)
            heap.new(0, 0, 0)
            with self.refused(9, "BadSlot"):
                heap.load(0, 0, 0, 2)
            with self.refused(13, "HeapFull"):
                heap.new_values(0, 1, "long", 5)
            heap.define_class("Small", [("b", "byte")])
            heap.new(0, 1, 1)
            with self.refused(11, "OutOfRange"):
                heap.put(0, 1, 0, 256)

    def test_cycles(self):
        with session() as heap:
            with self.refused(15, "NotMarking"):
                heap.mark()
            heap.snap()
            with self.refused(14, "AlreadyMarking"):
                heap.snap()
            with self.refused(16, "NothingToMark"):
                heap.mark()
            with self.refused(17, "NothingToDrain"):
                heap.drain()
            heap.new_values(0, 0, "int", 1)
            heap.finish()
            heap.snap()
            with self.refused(18, "NotDone", 1, 0):
                heap.finish()
            heap.mark()
            with self.refused(19, "SweepPending", 0):
                heap.finish()
            with self.refused(20, "NothingToSweep", 9):
                heap.sweep(9)

    def test_pins(self):
        with session("--keep", "2") as heap:
            with self.refused(21, "TooFar", 1, 0):
                heap.rewind(1)
            with self.refused(22, "NoPin"):
                heap.dump(1)
            with self.refused(24, "NotRetained"):
                heap.open(1)
            heap.define_class("Node", NODE)
            for _ in range(4):
                pin, _ = heap.open()
            with self.refused(25, "PinLimit"):
                heap.open()
            heap.rewind(1)
            with self.refused(23, "Lost", "Rewound"):
                heap.dump(pin)

    def test_rewinds_to_a_place(self):
        with session("--questions", "1") as heap:
            heap.define_class("Node", NODE)
            heap.new(0, 0, 0)
            heap.new(0, 1, 0)
            self.assertEqual(heap.rewind(Place(1)), 1)
            with self.refused(24, "NotRetained"):
                heap.rewind(Place(2))
            self.assertEqual(heap.rewind(Place(1)), 1)

    def test_of_streams(self):
        heap = canned("no 1 NoMemory", "no 26 ChronicleFull", "data 4a41", "no 23 Lost Memory", "no 27 Unreachable", "no 28 NoObject")
        with self.refused(1, "NoMemory"):
            heap.define_array("A")
        with self.refused(26, "ChronicleFull"):
            heap.clear(0, 0)
        with self.assertRaises(Refused) as caught:
            heap.dump()
        self.assertEqual((caught.exception.data, caught.exception.facts), (b"JA", ("Memory",)))
        with self.refused(27, "Unreachable"):
            heap.path(None, 0x10000000)
        with self.refused(28, "NoObject"):
            heap.show(3, 8)


class Endings(unittest.TestCase):
    """How a session ends."""

    def test_end(self):
        heap = session()
        self.assertEqual(heap.end(), 0)
        with self.assertRaises(Ended):
            heap.clear(0, 0)

    def test_a_line_too_long(self):
        heap = session()
        with self.assertRaises(Ended) as caught:
            heap.say("clear 0 0" + " " * 4096)
        self.assertEqual(caught.exception.word, "long")
        self.assertEqual(heap.end(), 1)

    def test_words_of_streams(self):
        for word in ("cut", "read", "reads"):
            with self.assertRaises(Ended) as caught:
                canned(f"bad {word}").snap()
            self.assertEqual(caught.exception.word, word)
        with self.assertRaises(Ended) as caught:
            canned().snap()
        self.assertIsNone(caught.exception.word)

    def test_bad_options(self):
        for words in (["run", "--keep", "0"], ["walk"], ["explore", "--from", "/nowhere/at/all"]):
            heap = Session.run(PROGRAM, *words)
            with self.assertRaises(Ended) as caught:
                heap.snap()
            wanted = subprocess.run([PROGRAM, *words], stdin=subprocess.DEVNULL, capture_output=True, text=True)
            self.assertTrue(wanted.stderr.strip())
            self.assertEqual((caught.exception.status, caught.exception.text), (wanted.returncode, wanted.stderr.strip()))
            self.assertIn(wanted.stderr.strip(), str(caught.exception))
            self.assertEqual((heap.end(), heap.text), (wanted.returncode, wanted.stderr.strip()))

    def test_faults(self):
        heap = Session.run(PROGRAM, "run")
        with self.assertRaises(Ended) as caught:
            heap.say("clear 0 0" + " " * 4096)
        self.assertEqual((caught.exception.word, caught.exception.status, caught.exception.text), ("long", 1, "heapdbg: long"))
        heap = Session.run(PROGRAM, "run", stderr=subprocess.PIPE)
        self.assertEqual((heap.end(), heap.text, heap.child.stderr.read()), (0, "", b""))
        heap.child.stderr.close()

    def test_a_reply_that_is_not_read(self):
        class Slow(io.BytesIO):
            def readline(self):
                raise TimeoutError

        heap = Session(Slow(), io.BytesIO())
        with self.assertRaises(TimeoutError):
            heap.snap()
        with self.assertRaisesRegex(Ended, "an earlier line"):
            heap.mark()
        self.assertEqual(heap.writer.getvalue(), b"snap\n")
        with heap.batch() as batch:
            later = batch.mark()
        with self.assertRaises(Ended):
            later.value

    def test_bad_commands(self):
        with session() as heap:
            for line in ("what", "clear 0", "end", "", " # what", "class A - x:foo"):
                with self.assertRaises(BadCommand):
                    heap.say(line)
            self.assertEqual(heap.say("clear 0 0"), ["ok"])


class Batches(unittest.TestCase):
    """Lines that are sent many at once."""

    def test_values_and_refusals(self):
        with session() as heap:
            with heap.batch() as batch:
                number = batch.define_class("Node", NODE)
                nodes = [batch.new(0, 0, 0) for _ in range(3)]
                wrong = batch.new(9, 0, 0)
                dump = batch.dump()
                with self.assertRaises(RuntimeError):
                    number.value
                self.assertFalse(number.done)
            self.assertEqual((number.done, number.value), (True, 0))
            self.assertEqual([node.value for node in nodes], [0x10000000, 0x10000020, 0x10000040])
            self.assertEqual(len(dump.value), len(heap.dump()))
            with self.assertRaises(Refused):
                wrong.value

    def test_an_exception(self):
        with session() as heap:
            heap.define_class("Node", NODE)
            heap.new(0, 0, 0)
            with self.assertRaises(KeyError):
                with heap.batch() as batch:
                    laters = [batch.put(0, 0, 1, number) for number in range(5_000)]
                    raise KeyError
            self.assertEqual([later.value for later in laters], [None] * 5_000)
            self.assertEqual(heap.load(0, 1, 0, 1), 4_999)
            self.assertEqual(heap.rewind(1), 5_002)

    def test_of_a_session_that_ended(self):
        heap = session()
        with heap.batch() as batch:
            first = batch.clear(0, 0)
            long = batch.send("clear 0 0" + " " * 4096, lambda words, lines: None)
            late = [batch.clear(0, 0) for _ in range(5_000)]
        self.assertIsNone(first.value)
        for later in (long, *late):
            with self.assertRaises(Ended) as caught:
                later.value
            self.assertEqual(caught.exception.status, 1)
        self.assertEqual(heap.end(), 1)

    def test_a_hundred_thousand_lines(self):
        started = time.monotonic()
        with session() as heap:
            with heap.batch() as batch:
                batch.define_class("Node", NODE)
                batch.new(0, 0, 0)
                laters = [batch.put(0, 0, 1, number) for number in range(100_000)]
            self.assertTrue(all(later.value is None for later in laters))
            self.assertEqual(heap.load(0, 1, 0, 1), 99_999)
        self.assertLess(time.monotonic() - started, 20)


class Sockets(unittest.TestCase):
    """A session over a socket."""

    def test_two_clients(self):
        port = free_port()
        with subprocess.Popen([PROGRAM, "serve", "--port", str(port), "--sessions", "2"], stdout=subprocess.PIPE) as server:
            first = connected(port)
            with Session.connect(port, timeout=10) as second:
                self.assertEqual(first.define_class("Node", NODE), 0)
                self.assertEqual(second.new(0, 0, 0), 0x10000000)
                self.assertEqual(first.dump(), second.dump())
            first.end()
            out, _ = server.communicate(timeout=20)
        self.assertEqual(out, b"session 1 quit\nsession 2 quit\n")
        self.assertEqual(server.returncode, 0)

    def test_a_heap_that_stays(self):
        with staying("--sessions", "1") as port:
            with connected(port) as heap:
                kept, other = heap.open(), heap.open()
                self.assertIsNone(heap.keep(kept.pin))
                with self.assertRaises(Refused) as caught:
                    heap.keep(3)
                self.assertEqual((caught.exception.number, caught.exception.name), (22, "NoPin"))
                self.assertEqual(heap.pins(), [(1, 0, "held", 0), (2, 0, "held", 0)])
            with Session.connect(port, timeout=10) as heap:
                self.assertEqual(heap.pins(), [(kept.pin, kept.place, "held", 0)])
                with self.assertRaises(Refused):
                    heap.close(other.pin)
                self.assertIsNone(heap.close(kept.pin))


class Secrets(unittest.TestCase):
    """The word that a client sends first, and dumps that are fetched."""

    WORD = b"0123456789abcdefXYZ"

    def test_the_first_line(self):
        for end in (b"", b"\n", b"\r\n"):
            with socket.create_server(("127.0.0.1", 0)) as listener, file_of(self.WORD + end) as path:
                heap = Session.connect(listener.getsockname()[1], timeout=10, secret=path)
                server, _ = listener.accept()
                with server, server.makefile("rb") as lines:
                    server.sendall(b"ok\n")
                    self.assertIsNone(heap.clear(0, 0))
                    self.assertEqual([lines.readline(), lines.readline()], [self.WORD + b"\n", b"clear 0 0\n"])
                heap.end()

    def test_a_word_that_is_refused(self):
        for size in (1, len(self.WORD) + 1, 100):
            with socket.create_server(("127.0.0.1", 0)) as listener, file_of(self.WORD) as path:
                heap = Session.connect(listener.getsockname()[1], timeout=10, secret=path)
                server, _ = listener.accept()
                with server:
                    server.recv(size)
                with self.assertRaises(Ended):
                    heap.clear(0, 0)
                self.assertIsNone(heap.end())

    def test_a_reset_at_the_end(self):
        with socket.create_server(("127.0.0.1", 0)) as listener:
            heap = Session.connect(listener.getsockname()[1], timeout=10)
            server, _ = listener.accept()
            # It closes once the client waits for the end, and the line `end` is unread.
            timer = threading.Timer(0.2, server.close)
            timer.start()
            self.assertIsNone(heap.end())
            timer.join()

    def test_files_without_a_word(self):
        for text in (b"", b"a" * 15, b"a" * 65, b"a" * 16 + b" ", b"a" * 16 + b"\n\n", b"a" * 16 + b"\r", b"\n" + b"a" * 16, b"\xe4" * 16):
            for call in (Session.connect, fetch):
                with self.subTest(text=text, call=call), file_of(text) as path, self.assertRaises(ValueError):
                    call(free_port(), secret=path)

    def test_fetched_bytes(self):
        dump = session().dump()
        for sent, whole in ((dump, True), (dump[:-1], False), (dump + b"\0", False), (dump[:31], False), (b"", False), (b"X" + dump[1:], False)):
            with self.subTest(size=len(sent)), socket.create_server(("127.0.0.1", 0)) as listener, file_of(self.WORD) as path:
                seen = []
                server = threading.Thread(target=lambda: self.send(listener, sent, seen))
                server.start()
                port = listener.getsockname()[1]
                if whole:
                    self.assertEqual(fetch(port, timeout=10, secret=path), dump)
                else:
                    with self.assertRaises(Ended) as caught:
                        fetch(port, timeout=10, secret=path)
                    self.assertEqual(caught.exception.word, "cut")
                server.join()
                self.assertEqual(seen, [self.WORD + b"\n"])

    def send(self, listener, data, seen):
        """Accepts a client, notes its first line, and sends bytes."""
        client, _ = listener.accept()
        with client:
            seen.append(client.recv(100))
            client.sendall(data)

    def test_a_heap_with_a_secret(self):
        dumps = free_port()
        with file_of(self.WORD + b"\n") as path, staying("--sessions", "2", "--dumps", str(dumps), "--secret", path) as port:
            with connected(port, secret=path) as heap:
                self.assertEqual(heap.define_class("Node", NODE), 0)
                self.assertEqual(fetch(dumps, timeout=10, secret=path), heap.dump())
                for other in (None, b"0" * 19):
                    with contextlib.nullcontext() if other is None else file_of(other) as wrong:
                        with Session.connect(port, timeout=10, secret=wrong) as stranger, self.assertRaises(Ended):
                            stranger.clear(0, 0)
                        with self.assertRaises(Ended):
                            fetch(dumps, timeout=10, secret=wrong)
                self.assertEqual(heap.rewind(1), 0)


def main():
    """Returns the exit status."""
    told = io.StringIO()
    tests = unittest.defaultTestLoader.loadTestsFromModule(sys.modules[__name__])
    passed = unittest.TextTestRunner(told).run(tests).wasSuccessful()
    if not passed:
        print(told.getvalue(), end="")
    return 0 if passed else 1


if __name__ == "__main__":
    sys.exit(main())
