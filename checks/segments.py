"""Reads dumps: a small reader of HPROF text that knows docs/FORMAT.md alone."""
import struct

WIDTHS = {4: 1, 5: 2, 6: 4, 7: 8, 8: 1, 9: 2, 10: 4, 11: 8}
BODY_LIMIT = 4096


class Reader:
    """Bytes that are taken from the front. Ids have 8 bytes."""

    def __init__(self, text):
        self.text = text
        self.at = 0

    def bytes(self, size):
        """Takes bytes."""
        if self.at + size > len(self.text):
            raise ValueError(f"{size} bytes are wanted at {self.at} of {len(self.text)}")
        self.at += size
        return self.text[self.at - size : self.at]

    def numbers(self, form):
        """Takes big-endian numbers, as `struct` names them."""
        return struct.unpack(">" + form, self.bytes(struct.calcsize(">" + form)))

    def is_over(self):
        """Tells whether nothing is left."""
        return self.at == len(self.text)


class Dump:
    """What a dump tells. Making it fails with ValueError if the text isn't one."""

    def __init__(self, text):
        self.names = {}
        self.loaded = {}
        self.classes = {}
        self.objects = {}
        self.sticky = []
        self.roots = []
        reader = Reader(text)
        if reader.bytes(19) != b"JAVA PROFILE 1.0.2\0" or reader.numbers("I") != (8,):
            raise ValueError("the header is another")
        reader.bytes(8)
        self.read_records(reader)
        self.look_at_references()

    def read_records(self, reader):
        """Reads records up to the end of the dump, which is the last."""
        tags = []
        while tags[-1:] != [0x2C]:
            tag, time, size = reader.numbers("BII")
            if time != 0 or (tags and ORDER.index(tag) < ORDER.index(tags[-1])):
                raise ValueError(f"record {tag:x} after {tags[-1:]}, time {time}")
            tags.append(tag)
            self.read_record(tag, Reader(reader.bytes(size)))
        if not reader.is_over() or tags.count(5) != 1:
            raise ValueError("no trace, two, or something after the end")

    def read_record(self, tag, body):
        """Reads the body of a record."""
        if tag == 1:
            (number,) = body.numbers("Q")
            self.names[number] = body.bytes(len(body.text) - 8)
        elif tag == 2:
            serial, number, trace, name = body.numbers("IQIQ")
            self.loaded[number] = self.names[name]
            if (serial, trace, number) != (len(self.loaded), 1, 0x00100000 + 8 * (serial - 1)):
                raise ValueError(f"class {serial} is {number:x}")
        elif tag == 5:
            if body.numbers("III") != (1, 0, 0):
                raise ValueError("the trace is another")
        elif tag == 0x1C:
            self.read_segment(body)
        if not body.is_over():
            raise ValueError(f"record {tag:x} is too long")

    def read_segment(self, body):
        """Reads sub-records up to the end of a segment, which has one, or not too many bytes."""
        count = 0
        while not body.is_over() or count == 0:
            self.read_part(body.numbers("B")[0], body)
            count += 1
        if count > 1 and len(body.text) > BODY_LIMIT:
            raise ValueError(f"a segment of {len(body.text)} bytes")

    def read_part(self, tag, body):
        """Reads a sub-record: a class, the root of one, an object, or the root of a register."""
        if tag == 0x20 and not self.sticky:
            self.read_class(body)
        elif tag == 5 and not self.objects:
            self.sticky += body.numbers("Q")
        elif tag in (0x21, 0x22, 0x23) and not self.roots:
            self.read_object(tag, body)
        elif tag == 0xFF:
            self.roots += body.numbers("Q")
        else:
            raise ValueError(f"sub-record {tag:x} stands where none may")

    def read_class(self, body):
        """Reads a class: its super and its own fields."""
        number, _, above = body.numbers("QIQ")
        body.bytes(40)
        size, constants, statics, count = body.numbers("IHHH")
        own = [body.numbers("QB") for _ in range(count)]
        fields = [kind for name, kind in own if self.names[name]] + (self.classes[above] if above else [])
        if (constants, statics, size) != (0, 0, sum(WIDTHS.get(kind, 8) for kind in fields)) or number not in self.loaded:
            raise ValueError(f"class {number:x} has {size} bytes of values")
        self.classes[number] = fields

    def read_object(self, tag, body):
        """Reads an object: its references."""
        number, trace = body.numbers("QI")
        if trace != 1 or number <= max(self.objects, default=0) or number % 8:
            raise ValueError(f"object {number:x} stands where none may")
        if tag == 0x21:
            self.objects[number] = instance(self.classes, body)
        elif tag == 0x22:
            count, of = body.numbers("IQ")
            self.objects[number] = [it for it in body.numbers(f"{count}Q") if it]
            if self.classes[of]:
                raise ValueError(f"object {number:x} is no array")
        else:
            count, kind = body.numbers("IB")
            body.bytes(count * WIDTHS[kind])
            self.objects[number] = []

    def look_at_references(self):
        """Looks whether each class has its root, and whether references and roots name objects of the dump."""
        found = [it for references in self.objects.values() for it in references if it not in self.objects]
        found += [it for it in self.roots if it not in self.objects]
        if found or not list(self.loaded) == list(self.classes) == self.sticky:
            raise ValueError(f"no object {found[:3]}, or a class without a root")


# The order of records, by tag.
ORDER = [1, 2, 5, 0x1C, 0x2C]


def instance(classes, body):
    """Reads what follows an instance's id. Returns its references."""
    of, size = body.numbers("QI")
    values = Reader(body.bytes(size))
    taken = [(kind, values.bytes(WIDTHS.get(kind, 8))) for kind in classes[of]]
    if not values.is_over():
        raise ValueError(f"{size} bytes of values")
    return [found for kind, text in taken if kind == 2 and (found := int.from_bytes(text, "big"))]


def fault_of(text):
    """Returns why this text is no dump, or None if it is one."""
    try:
        Dump(text)
    except (ValueError, KeyError, IndexError, struct.error) as error:
        return repr(error)
    return None
