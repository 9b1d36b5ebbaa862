#!/usr/bin/env python3
"""Tests of the recorder: `test_recorder.py PROGRAM`, over heaps of the built program.

Prints what fails, and ends with status 1 then. Prints nothing where all is well."""
import contextlib
import io
import os
import pathlib
import random
import socket
import subprocess
import sys
import tempfile
import time
import unittest
import unittest.mock

from heapdbg import BadCommand, Cost, Pin, Recorder, Refused, Session, UnknownName, roots

PROGRAM = os.path.abspath(sys.argv[1]) if len(sys.argv) > 1 else "heapdbg"
THREADS = 3
# The fields of the objects of a random program: two references and a number that no other object has.
FIELDS = ("one", "two")


@contextlib.contextmanager
def recorded(**options):
    """A recorder and the session that it records to."""
    with Session.explore(PROGRAM, **{"regions": 64, "mutators": THREADS, "keep": 65536, **options}) as heap:
        yield Recorder.to_session(heap), heap


def free_port():
    """Returns a port that was free."""
    with socket.create_server(("127.0.0.1", 0)) as found:
        return found.getsockname()[1]


class Lines(unittest.TestCase):
    """What is said of an operation, and what it costs."""

    def said(self, act):
        """Returns the lines that a recorder says while something acts on it, and the recorder."""
        with tempfile.TemporaryDirectory() as folder:
            path = pathlib.Path(folder, "a.session")
            with Recorder.to_file(path) as record:
                act(record)
            return path.read_text().splitlines(), record

    def test_first_uses(self):
        def act(record):
            record.define("Point", {"x": "int", "y": "byte", "f": "float", "c": "char"})
            record.alloc("p", "Point", {"x": -1, "y": 200, "f": 1.5, "c": "A"})
            record.alloc("all", "Kinds", {"n": 7, "b": True, "d": -2.0, "r": "p", "o": None})
            record.write("all", "n", 2**64 - 1)

        lines, record = self.said(act)
        fields = ["put 0 2 0 4294967295", "put 0 2 1 200", "put 0 2 2 1069547520", "put 0 2 3 65"]
        kinds = ["class Kinds - n:long b:boolean d:double r:object o:object", "new 0 3 1"]
        values = ["put 0 3 0 7", "put 0 3 1 1", f"put 0 3 2 {0xC000 << 48}", "store 0 3 3 2"]
        after = [f"put 0 3 0 {2**64 - 1}"]
        self.assertEqual(lines, ["class Point - x:int y:byte f:float c:char", "new 0 2 0", *fields, *kinds, *values, *after])
        self.assertEqual(record.costs, {"define": Cost(1, 1), "alloc": Cost(2, 11), "write": Cost(1, 1)})
        self.assertEqual(record.said, len(lines))

    def test_arrays(self):
        def act(record):
            record.alloc_array("table", "[Node;", 3)
            record.alloc_values("text", "byte", 2)
            record.write("table", 2, "text")
            record.write("text", 1, 255)
            for name, index in (("table", 3), ("table", -1), ("text", 2)):
                with self.assertRaises(IndexError):
                    record.write(name, index, None)
            with self.assertRaises(OverflowError):
                record.write("text", 0, 256)

        lines, record = self.said(act)
        self.assertEqual(lines, ["array [Node;", "newarray 0 2 0 3", "newprim 0 3 byte 2", "store 0 2 2 3", "put 0 3 1 255"])
        self.assertEqual((record.costs["alloc_array"], record.costs["alloc_values"]), ((1, 2), (1, 1)))

    def test_roots_and_calls(self):
        def act(record):
            with record.call():
                record.alloc("a", "Node", {"next": None})
                record.root("a")
                record.root("a")
            with record.call() as call:
                record.alloc("b", "Node", {"next": "a"})
                call.returns("b")
            record.unroot("b")
            record.unroot("a")
            record.unroot("a")
            with self.assertRaises(UnknownName):
                record.unroot("a")

        lines, record = self.said(act)
        first = ["class Node - next:object", "new 0 2 0", "move 0 0 0 2", "clear 0 2"]
        self.assertEqual(lines, [*first, "new 0 2 0", "store 0 2 0 0", "clear 0 2", "clear 0 0"])
        self.assertEqual((record.costs["root"], record.costs["unroot"], record.costs["end_call"]), ((2, 1), (4, 2), (2, 1)))

    def test_threads(self):
        def act(record):
            record.alloc("a", "Node", {"next": None}, thread=1)
            record.alloc("b", "Node", thread=2)
            record.write("b", "next", "a", thread=2)

        lines, _ = self.said(act)
        self.assertEqual(lines[1:], ["new 1 2 0", "new 2 2 0", "move 2 4 1 2", "store 2 2 0 4", "clear 2 4"])

    def test_unknown_names_and_fields(self):
        def act(record):
            record.alloc("a", "Node", {"next": None})
            for act in (lambda: record.write("b", "next", None), lambda: record.write("a", "next", "b"), lambda: record.root("b"),
                        lambda: record.hold("b"), lambda: record.unroot("b")):
                with self.assertRaises(UnknownName):
                    act()
            with self.assertRaises(KeyError):
                record.write("a", "text", None)
            with self.assertRaises(ValueError):
                record.define("Node", {})
            for name, kinds in (("A B", {}), ("A", {"x\n": "int"}), ("", {})):
                with self.assertRaises(BadCommand):
                    record.define(name, kinds)
            with self.assertRaises(BadCommand):
                record.alloc_array("c", "[A B;", 1)

        lines, _ = self.said(act)
        self.assertEqual(lines, ["class Node - next:object", "new 0 2 0"])


class Moments(unittest.TestCase):
    """Cycles, pins and ends."""

    def test_collect_and_pin(self):
        with recorded() as (record, heap):
            for number in range(9):
                with record.call():
                    record.alloc(number, "Node", {"next": None})
            record.alloc("a", "Node", {"next": None})
            self.assertEqual((heap.histogram(), record.pin()), ([(10, 80, "Node")], 1))
            record.collect()
            self.assertEqual((record.pin(), heap.histogram()), (2, [(1, 8, "Node")]))
            self.assertEqual(heap.growth(Pin(1)), [("Node", 10, 80, 1, 8)])

    def test_garbage_is_forgotten(self):
        with recorded() as (record, _heap):
            for number in range(12_000):
                with record.call():
                    record.alloc(number, "Node", {"next": None})
                if number % 4_000 == 0:
                    record.collect()
            self.assertLess(len(record.mirror.names), 1_500)
            record.collect()
            self.assertEqual(len(record.mirror.names), 0)

    def test_a_name_that_is_used_again(self):
        with recorded() as (record, heap):
            record.alloc("a", "Node", {"next": None, "n": 1})
            record.alloc("b", "Node", {"next": "a"})
            record.alloc("a", "Node", {"n": 2})
            record.write("b", "n", 3)
            record.write("a", "n", 4)
            record.flush()
            nodes = [each.id for each in heap.objects() if each.class_name == "Node"]
            self.assertEqual(sorted(heap.show(None, node)[1].value for node in nodes), [1, 3, 4])

    def test_a_way_is_found(self):
        with recorded() as (record, heap):
            with record.call():
                record.alloc(0, "Node", {"next": None, "n": 0})
                record.root(0)
                for number in range(1, 50):
                    record.alloc(number, "Node", {"next": None, "n": number})
                    record.write(number - 1, "next", number)
            record.flush()
            before = record.said
            record.write(49, "n", 1_049)
            self.assertEqual(record.said - before, 50)
            before = record.said
            record.write(49, "n", 2_049)
            self.assertEqual(record.said - before, 1)
            record.flush()
            nodes = [each.id for each in heap.objects() if each.class_name == "Node"]
            self.assertEqual(sorted(heap.show(None, node)[1].value for node in nodes), [*range(49), 2_049])
            self.assertEqual([each for each in heap.registers() if each.id and each.register < roots.BLOCK], heap.registers()[:1])

    def test_a_file_is_what_a_session_has(self):
        def act(record):
            for number in range(300):
                record.alloc(number, "Node", {"next": number - 1 if number else None, "n": number})
                if number % 3 == 0 and number:
                    record.unroot(number - 1)
            record.collect()
            record.pin()

        with tempfile.TemporaryDirectory() as folder:
            path = pathlib.Path(folder, "a.session")
            with Recorder.to_file(path) as record:
                act(record)
            with Session.explore(PROGRAM, regions=64, load=path) as heap, recorded() as (record, other):
                act(record)
                record.flush()
                self.assertEqual(len(heap.pins()), 1)
                self.assertEqual(heap.dump(), other.dump())
                self.assertEqual(heap.dump(Pin(1)), other.dump(Pin(1)))
            self.assertEqual(heap.text, "")

    def test_flush_of_a_file(self):
        with tempfile.TemporaryDirectory() as folder:
            path = pathlib.Path(folder, "a.session")
            with Recorder.to_file(path) as record:
                record.alloc("a", "Node", {"next": None, "n": 7})
                record.flush()
                self.assertEqual(path.read_text(), "class Node - next:object n:long\nnew 0 2 0\nput 0 2 1 7\n")

    def test_refusals(self):
        with recorded(regions=1) as (record, heap):
            record.alloc("a", "Node", {"next": None})
            record.alloc_values("b", "long", 1024)
            record.write("a", "next", "b")
            with self.assertRaisesRegex(Refused, "newprim 0 3 long 1024: 13 HeapFull"):
                record.flush()

    def test_a_served_heap(self):
        port = free_port()
        words = [PROGRAM, "serve", "--port", str(port), "--sessions", "3", "--questions", "1"]
        with subprocess.Popen(words, stdout=subprocess.PIPE) as server:
            for _ in range(200):
                try:
                    record = Recorder.to_port(port)
                    break
                except ConnectionRefusedError:
                    time.sleep(0.05)
            with record, Recorder.to_port(port) as other, Session.connect(port) as heap:
                heap.define_class("First")
                other.alloc("b", "Other", {"n": 4}, thread=1)
                record.alloc("a", "Node", {"n": 3})
                for each in (record, other):
                    each.flush()
                self.assertEqual([each.class_name for each in heap.registers() if each.id], ["Node", "Other"])
                heap.open()
                self.assertEqual((record.pin(), heap.pins()[-1].pin), (2, 2))
                record.collect()
                record.flush()
            server.communicate(timeout=20)

    def test_a_heap_without_questions(self):
        with Session.run(PROGRAM, "run") as heap:
            record = Recorder.to_session(heap)
            record.alloc("a", "Node", {"next": None})
            record.collect()
            with self.assertRaises(BadCommand):
                record.flush()


class Deep(unittest.TestCase):
    """Roots that find no room in registers."""

    def test_many_roots(self):
        with recorded() as (record, heap):
            for number in range(600):
                record.alloc(number, "Node", {"next": number - 1 if number else None, "n": number})
            for number in range(0, 600, 2):
                record.unroot(number)
            for number in range(0, 600, 3):
                record.write(number, "next", number)
            record.flush()
            rows = {heap.show(None, each.id)[1].value: each for each in heap.objects() if each.class_name == "Node"}
            self.assertEqual(len(rows), 600)
            # An even one is reached from the next, which names it unless it was written over.
            reached = {number for number in range(600) if number % 2 or (number + 1) % 3}
            self.assertEqual({number for number, each in rows.items() if not each.unreached}, reached)

    def test_too_many_roots(self):
        with recorded(regions=256) as (record, _heap):
            with unittest.mock.patch.multiple(roots, BLOCKS=2, BLOCK_SIZE=3):
                for number in range(8):
                    record.alloc(number, "Node", {"next": None})
                with self.assertRaisesRegex(OverflowError, "6 roots"):
                    record.alloc("more", "Node")
                record.unroot(4)
                record.alloc("more", "Node")


class Programs(unittest.TestCase):
    """Random programs, beside what their objects must be."""

    def setUp(self):
        self.objects = {}
        self.named = [{} for _ in range(THREADS)]
        self.calls = [[set()] for _ in range(THREADS)]
        self.running = [[] for _ in range(THREADS)]

    def reached(self):
        """Returns the names of the objects that roots reach, in order."""
        found = [name for roots in self.named for name in roots]
        found += [name for calls in self.calls for call in calls for name in call]
        queue = list(dict.fromkeys(found))
        for name in queue:
            queue += {other for other in self.objects[name].values() if other is not None}.difference(queue)
        return sorted(queue)

    def step(self, draw, record):
        """Does something random."""
        thread = draw.randrange(THREADS)
        names = self.reached()
        act = draw.choice("aaaawwwwwwrruhcee") if names else "a"
        if act == "a":
            name = len(self.objects)
            self.objects[name] = {field: draw.choice([None, *names]) for field in FIELDS}
            record.alloc(name, "Node", {**self.objects[name], "tag": name}, thread)
            self.calls[thread][-1].add(name)
        elif act == "w":
            name, field, other = draw.choice(names), draw.choice(FIELDS), draw.choice([None, *names])
            record.write(name, field, other, thread)
            self.objects[name][field] = other
        elif act == "r":
            name = draw.choice(names)
            record.root(name, thread)
            self.named[thread][name] = self.named[thread].get(name, 0) + 1
        elif act == "u" and self.named[thread]:
            name = draw.choice(sorted(self.named[thread]))
            record.unroot(name, thread)
            self.named[thread][name] -= 1
            self.named[thread] = {each: times for each, times in self.named[thread].items() if times}
        elif act == "h":
            name = draw.choice(names)
            record.hold(name, thread)
            self.calls[thread][-1].add(name)
        elif act == "c" and len(self.running[thread]) < 4:
            block = record.call(thread)
            self.running[thread].append((block, block.__enter__()))
            self.calls[thread].append(set())
        elif act == "e" and self.running[thread]:
            block, call = self.running[thread].pop()
            results = draw.sample(names, min(len(names), draw.randrange(3)))
            for name in results:
                call.returns(name)
            block.__exit__(None, None, None)
            self.calls[thread].pop()
            self.calls[thread][-1].update(results)

    def compare(self, heap):
        """Looks whether the heap has what it must have."""
        listed = [each for each in heap.objects() if each.class_name == "Node"]
        rows = {each.id: heap.show(None, each.id) for each in listed}
        tags = {id: row[-1].value for id, row in rows.items()}
        found = {tags[id]: {row.name: tags[row.value] if row.value else None for row in slots[:-1]} for id, slots in rows.items()}
        reached = self.reached()
        self.assertEqual({name: found.get(name) for name in reached}, {name: self.objects[name] for name in reached})
        self.assertEqual(sorted(tags[each.id] for each in listed if not each.unreached), reached)

    def run_one(self, seed):
        draw = random.Random(seed)
        with unittest.mock.patch.multiple(roots, BLOCKS=64, BLOCK_SIZE=draw.choice((2, 5, 256))):
            with recorded() as (record, heap):
                record.define("Node", {**dict.fromkeys(FIELDS, "object"), "tag": "long"})
                for number in range(240):
                    self.step(draw, record)
                    if number % 60 == 59:
                        if draw.random() < 0.5:
                            record.collect()
                        record.flush()
                        self.compare(heap)

    def test_programs(self):
        for seed in range(30):
            self.setUp()
            with self.subTest(seed=seed):
                self.run_one(seed)


def main():
    """Returns the exit status."""
    told = io.StringIO()
    tests = unittest.defaultTestLoader.loadTestsFromModule(sys.modules[__name__])
    passed = unittest.TextTestRunner(told).run(tests).wasSuccessful()
    if not passed:
        print(told.getvalue(), end="")
    return 0 if passed else 1


if __name__ == "__main__":
    sys.exit(main())
