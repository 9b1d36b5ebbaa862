"""Reads a dump as a viewer of Java heaps does, and finds what such a viewer would miss.

By the format of OpenJDK's heapDumper.cpp alone, and by what the parser of VisualVM looks for: ids of 4 bytes, since with others
it reads properties of java.lang.System; the class of each kind of primitive array that is there; and for roots and retained
sizes java.lang.Class and the classes of references, of which java.lang.ref.Reference has a field `referent`."""
import struct

PRIMITIVES = {4: "[Z", 5: "[C", 6: "[F", 7: "[D", 8: "[B", 9: "[S", 10: "[I", 11: "[J"}
WIDTHS = {2: 4, 4: 1, 5: 2, 6: 4, 7: 8, 8: 1, 9: 2, 10: 4, 11: 8}
OBJECT, REFERENCE = "java/lang/Object", "java/lang/ref/Reference"
# Each class that is looked for, with its super.
WANTED = {OBJECT: None, REFERENCE: OBJECT, "java/lang/Class": OBJECT}
WANTED |= {f"java/lang/ref/{kind}Reference": REFERENCE for kind in ("Weak", "Soft", "Final", "Phantom")}
REFERENCE_FIELDS = [("referent", 2)]


class Reader:
    """Bytes that are read from front to end."""

    def __init__(self, data):
        self.data, self.at = data, 0

    def bytes(self, count):
        """Takes bytes."""
        taken = self.data[self.at : self.at + count]
        assert len(taken) == count, "the file ends early"
        self.at += count
        return taken

    def u1(self):
        """Takes a number of one byte."""
        return self.bytes(1)[0]

    def u2(self):
        """Takes a number of two bytes."""
        return struct.unpack(">H", self.bytes(2))[0]

    def u4(self):
        """Takes a number of four bytes, or an id."""
        return struct.unpack(">I", self.bytes(4))[0]


class Dump:
    """A dump with ids of 4 bytes: names of the classes by id, their supers, fields and instance sizes, objects and roots."""

    def __init__(self, data):
        read = Reader(data)
        self.format = read.bytes(19)
        self.id_size = read.u4()
        read.bytes(8)
        self.texts, self.names = {}, {}
        self.supers, self.fields, self.sizes = {}, {}, {}
        self.instances, self.arrays, self.values, self.roots = {}, {}, {}, []
        if self.id_size == 4:
            while read.at < len(data):
                self.record(read)

    def record(self, read):
        """Takes a record."""
        tag, _, length = read.u1(), read.u4(), read.u4()
        body = Reader(read.bytes(length))
        if tag == 0x01:
            self.texts[body.u4()] = body.data[4:].decode()
        elif tag == 0x02:
            _, number, _ = body.u4(), body.u4(), body.u4()
            self.names[number] = self.texts[body.u4()]
        elif tag == 0x1C:
            while body.at < length:
                self.sub_record(body)

    def sub_record(self, read):
        """Takes a sub-record."""
        tag, number = read.u1(), read.u4()
        if tag == 0x20:
            _, self.supers[number] = read.u4(), read.u4()
            read.bytes(20)
            self.sizes[number] = read.u4()
            assert (read.u2(), read.u2()) == (0, 0), "constants or static fields"
            self.fields[number] = [(self.texts[read.u4()], read.u1()) for _ in range(read.u2())]
        elif tag == 0x21:
            _, self.instances[number] = read.u4(), read.u4()
            read.bytes(read.u4())
        elif tag == 0x22:
            _, count = read.u4(), read.u4()
            self.arrays[number] = read.u4()
            read.bytes(4 * count)
        elif tag == 0x23:
            _, count, self.values[number] = read.u4(), read.u4(), read.u1()
            read.bytes(WIDTHS[self.values[number]] * count)
        elif tag in (0x05, 0xFF):
            self.roots.append(number)
        else:
            raise AssertionError(f"a sub-record {tag:#x}")

    def count(self, name):
        """Returns how many instances there are of a class."""
        return sum(self.names[of] == name for of in self.instances.values())


def missing_classes(dump):
    """Yields what is missing of the classes that a viewer looks for."""
    numbers = {name: number for number, name in dump.names.items()}
    for name, sup in WANTED.items():
        if name not in numbers or numbers[name] not in dump.supers:
            yield f"no class {name}"
        elif dump.supers[numbers[name]] != numbers.get(sup, 0):
            yield f"the super of {name} isn't {sup}"
    if REFERENCE in numbers and dump.fields.get(numbers[REFERENCE]) != REFERENCE_FIELDS:
        yield f"the fields of {REFERENCE} are {dump.fields.get(numbers[REFERENCE])}"
    for number, name in dump.names.items():
        if not name.startswith("[") and name != OBJECT and dump.supers.get(number) not in dump.supers:
            yield f"the class {name} has no super"
    yield from (f"no class {PRIMITIVES[kind]}" for kind in sorted(set(dump.values.values())) if PRIMITIVES[kind] not in numbers)
    for number in sorted(set(dump.arrays.values())):
        name = dump.names[number]
        if not (name.startswith("[L") and name.endswith(";") and name[2:-1] in numbers):
            yield f"the array class {name} isn't named as in Java"


def faults(data):
    """Yields what a viewer would miss in a dump."""
    dump = Dump(data)
    if (dump.format, dump.id_size) != (b"JAVA PROFILE 1.0.2\0", 4):
        yield f"the format is {dump.format!r}, with ids of {dump.id_size} bytes"
        return
    yield from missing_classes(dump)
    objects = {**dump.instances, **dump.arrays, **dump.values}
    if not objects:
        yield "no object"
    yield from (f"the root {root:#x} is nothing" for root in dump.roots if root not in objects and root not in dump.supers)
    yield from (f"an instance of {of:#x}" for of in {*dump.instances.values(), *dump.arrays.values()} if of not in dump.supers)
