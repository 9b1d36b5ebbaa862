"""The heap: classes, regions with free lists, registers, the marker and the sweeper, and the events that change them.

A state is never changed once it stands: an event works on a copy. So a list of states is a history."""
from typing import NamedTuple

# Each kind's type in a dump, and how many bits a value has. A reference has none of its own.
KINDS = {
    "object": (2, None),
    "boolean": (4, 1),
    "char": (5, 16),
    "float": (6, 32),
    "double": (7, 64),
    "byte": (8, 8),
    "short": (9, 16),
    "int": (10, 32),
    "long": (11, 64),
}
CELL_SIZES = (4, 16, 64, 256, 1024)
REGION_WORDS = 1024
REGISTERS = 8
MOST_SLOTS = 64
MOST_ELEMENTS = 1024
MOST_ELEMENTS_WITH_AREA = 2_097_147
NAME_BYTES = b"ABCDEFGHIJKLMNOPQRSTUVWXYZabcdefghijklmnopqrstuvwxyz0123456789_$/[;."
SIGNS = bytes(byte for byte in range(0x21, 0x7F) if byte != ord(":"))
FIRST_OBJECT = 0x10000000
REFUSALS = {
    2: "NoClass",
    3: "ClassLimit",
    4: "BadName",
    5: "DuplicateName",
    6: "FieldLimit",
    7: "BadRegister",
    8: "NullRegister",
    9: "BadSlot",
    10: "WrongKind",
    11: "OutOfRange",
    12: "TooLarge",
    13: "HeapFull",
    14: "AlreadyMarking",
    15: "NotMarking",
    16: "NothingToMark",
    17: "NothingToDrain",
    18: "NotDone",
    19: "SweepPending",
    20: "NothingToSweep",
    21: "TooFar",
    22: "NoPin",
    23: "Lost",
    24: "NotRetained",
    25: "PinLimit",
}


class Limits(NamedTuple):
    """What a heap allows: how many classes, how many bytes of a name and which, how many pins, and how many bytes of a line."""

    classes: int
    longest_name: int
    name_bytes: bytes
    pins: int
    longest_line: int


NARROW = Limits(256, 64, NAME_BYTES, 4, 4096)
WIDE = Limits(4096, 255, SIGNS, 64, 32768)


class Refused(Exception):
    """A call that changes nothing: the number of its refusal, and the facts."""

    def __init__(self, number, *facts):
        super().__init__(number, *facts)
        self.number = number
        self.facts = facts


def refuse_if(holds, number, *facts):
    """Refuses a call if something holds."""
    if holds:
        raise Refused(number, *facts)


class Class(NamedTuple):
    """A class: the number of its super or None, and its own fields as (name, kind)."""

    name: bytes
    sup: int | None
    fields: tuple
    is_array: bool


class Object(NamedTuple):
    """An object: what it is, ("instance", class), ("array", class) or ("prim", kind), its words and its two bits."""

    what: tuple
    words: tuple
    live: bool
    mark: bool


class Region(NamedTuple):
    """A region in use: its objects by cell, and its free cells, the head of the list first. An object of more than 1,024 slots takes
    this region and those that follow it, which stay None: the cell is as large as all of them."""

    cell_size: int
    pending: bool
    objects: dict
    free: tuple


class State:
    """The whole heap. Empty regions are None, and their numbers stand in the pool, its head first; but those of the area, the last
    regions, never do."""

    def __init__(self, regions, mutators, limits=NARROW, area=0):
        self.limits = limits
        self.most_elements = MOST_ELEMENTS_WITH_AREA if area else MOST_ELEMENTS
        self.area = range(regions - area, regions)
        self.classes = ()
        self.regions = [None] * regions
        self.pool = tuple(range(regions - area))
        self.registers = [0] * (REGISTERS * mutators)
        # The ids of gray objects, the last one pushed last.
        self.gray = []
        self.log = []
        self.drained = 0
        self.marking = False

    def copy(self):
        """Returns a state that may be changed part by part."""
        other = object.__new__(State)
        other.__dict__.update(self.__dict__)
        other.regions = list(self.regions)
        other.registers = list(self.registers)
        other.gray = list(self.gray)
        other.log = list(self.log)
        return other

    # ---- what stands where

    def place_of(self, word):
        """Returns the region and the cell of the object with this id."""
        number, at = divmod((word - FIRST_OBJECT) // 8, REGION_WORDS)
        return number, at // self.regions[number].cell_size

    def object_of(self, word):
        """Returns the object with this id."""
        number, cell = self.place_of(word)
        return self.regions[number].objects[cell]

    def id_of(self, number, cell):
        """Returns the id of the object in a cell."""
        return FIRST_OBJECT + 8 * (REGION_WORDS * number + cell * self.regions[number].cell_size)

    def objects(self):
        """Yields (id, object) by region and cell."""
        for number, region in enumerate(self.regions):
            for cell in sorted(region.objects if region else ()):
                yield self.id_of(number, cell), region.objects[cell]

    def put_object(self, word, thing):
        """Puts an object where the one with this id stood."""
        number, cell = self.place_of(word)
        region = self.regions[number]
        self.regions[number] = region._replace(objects={**region.objects, cell: thing})

    def kinds_of(self, thing):
        """Returns the kinds of an object's slots."""
        sort, of = thing.what
        if sort == "instance":
            return slots_of(self.classes, of)
        return (of if sort == "prim" else "object",) * len(thing.words)

    # ---- registers and slots

    def register(self, m, r):
        """Returns the index of a register."""
        refuse_if(r >= REGISTERS or m >= len(self.registers) // REGISTERS, 7)
        return REGISTERS * m + r

    def named_slot(self, word, slot):
        """Returns the object with this id and the kind of one of its slots."""
        refuse_if(word == 0, 8)
        thing = self.object_of(word)
        refuse_if(slot >= len(thing.words), 9)
        return thing, self.kinds_of(thing)[slot]

    def write(self, word, slot, value):
        """Writes a slot of the object with this id."""
        thing = self.object_of(word)
        self.put_object(word, thing._replace(words=thing.words[:slot] + (value,) + thing.words[slot + 1 :]))

    # ---- allocation and marking

    def new_large_object(self, what, slots):
        """Makes an object of more than 1,024 slots in the lowest regions of the area, one after another, that no other takes, and
        returns its id."""
        count = -(-slots // REGION_WORDS)
        untaken = set(self.area)
        for number in self.area:
            if self.regions[number]:
                untaken -= set(range(number, number + self.regions[number].cell_size // REGION_WORDS))
        fitting = [number for number in self.area if untaken.issuperset(range(number, number + count))]
        refuse_if(not fitting, 13)
        thing = Object(what, (0,) * slots, True, self.marking)
        self.regions[fitting[0]] = Region(REGION_WORDS * count, False, {0: thing}, ())
        return self.id_of(fitting[0], 0)

    def new_object(self, what, slots):
        """Makes an object whose slots are 0, and returns its id."""
        if slots > REGION_WORDS:
            return self.new_large_object(what, slots)
        size = next(size for size in CELL_SIZES if slots <= size)
        fitting = [n for n, region in enumerate(self.regions) if region and region.cell_size == size and region.free]
        refuse_if(not fitting and not self.pool, 13)
        if fitting:
            number = fitting[0]
        else:
            number, *rest = self.pool
            self.pool = tuple(rest)
            self.regions[number] = Region(size, False, {}, tuple(range(REGION_WORDS // size)))
        region = self.regions[number]
        thing = Object(what, (0,) * slots, True, self.marking)
        objects = {**region.objects, region.free[0]: thing}
        self.regions[number] = region._replace(objects=objects, free=region.free[1:])
        return self.id_of(number, region.free[0])

    def shade(self, words):
        """Marks those objects of some words that aren't marked yet, in order, pushes them, and returns how many they are."""
        before = len(self.gray)
        for word in words:
            if word and not self.object_of(word).mark:
                self.put_object(word, self.object_of(word)._replace(mark=True))
                self.gray.append(word)
        return len(self.gray) - before


def slots_of(classes, number):
    """Returns the kinds of the slots of a class: its own fields, then those of its super."""
    kinds = ()
    while number is not None:
        kinds += tuple(kind for _, kind in classes[number].fields)
        number = classes[number].sup
    return kinds


def is_name(limits, name):
    """Returns whether a class or a field may have this name."""
    return 1 <= len(name) <= limits.longest_name and all(byte in limits.name_bytes for byte in name)


# ---- events: each changes a copy of the state, which is dropped if the event is refused, and returns its answer


def define(state, name, sup, fields, is_array):
    """Adds a class."""
    if sup is not None:
        refuse_if(sup >= len(state.classes) or state.classes[sup].is_array, 2)
    refuse_if(len(state.classes) >= state.limits.classes, 3)
    names = [field for field, _ in fields]
    refuse_if(not all(is_name(state.limits, each) for each in [name, *names]), 4)
    refuse_if(any(other.name == name for other in state.classes) or len(set(names)) < len(names), 5)
    added = (*state.classes, Class(name, sup, tuple(fields), is_array))
    refuse_if(len(slots_of(added, len(added) - 1)) > MOST_SLOTS, 6)
    state.classes = added
    return "class", len(added) - 1


def class_event(state, name, sup, fields):
    """Defines a class of instances."""
    return define(state, name, sup, fields, False)


def array_event(state, name):
    """Defines a class of arrays of references."""
    return define(state, name, None, (), True)


def new(state, m, r, number):
    """Makes an instance."""
    at = state.register(m, r)
    refuse_if(number >= len(state.classes), 2)
    refuse_if(state.classes[number].is_array, 10)
    state.registers[at] = state.new_object(("instance", number), len(slots_of(state.classes, number)))
    return "object", state.registers[at]


def new_array(state, m, r, number, length):
    """Makes an array of references."""
    at = state.register(m, r)
    refuse_if(number >= len(state.classes), 2)
    refuse_if(not state.classes[number].is_array, 10)
    refuse_if(length > state.most_elements, 12)
    state.registers[at] = state.new_object(("array", number), length)
    return "object", state.registers[at]


def new_prim(state, m, r, kind, length):
    """Makes an array of values."""
    at = state.register(m, r)
    refuse_if(kind == "object", 10)
    refuse_if(length > state.most_elements, 12)
    state.registers[at] = state.new_object(("prim", kind), length)
    return "object", state.registers[at]


def load(state, m, to, source, slot):
    """Reads a slot: a reference into a register, a value into the answer."""
    to, source = state.register(m, to), state.register(m, source)
    thing, kind = state.named_slot(state.registers[source], slot)
    word = thing.words[slot]
    if kind != "object":
        return "value", word
    state.registers[to] = word
    return ("object", word) if word else ("null",)


def store(state, m, target, slot, source):
    """Writes a reference slot. While a cycle runs, what stood there goes to the log."""
    target, source = state.register(m, target), state.register(m, source)
    thing, kind = state.named_slot(state.registers[target], slot)
    refuse_if(kind != "object", 10)
    if state.marking and thing.words[slot]:
        state.log.append(thing.words[slot])
    state.write(state.registers[target], slot, state.registers[source])
    return ("done",)


def put(state, m, target, slot, value):
    """Writes a value slot."""
    target = state.register(m, target)
    _, kind = state.named_slot(state.registers[target], slot)
    refuse_if(kind == "object", 10)
    refuse_if(value >> KINDS[kind][1], 11)
    state.write(state.registers[target], slot, value)
    return ("done",)


def move(state, m, to, from_m, source):
    """Copies a register."""
    to = state.register(m, to)
    state.registers[to] = state.registers[state.register(from_m, source)]
    return ("done",)


def clear(state, m, r):
    """Makes a register null."""
    state.registers[state.register(m, r)] = 0
    return ("done",)


def snap(state):
    """Begins a cycle with what the registers name."""
    refuse_if(state.marking, 14)
    state.marking = True
    return "pushed", state.shade(state.registers)


def mark(state):
    """Looks at the last gray object."""
    refuse_if(not state.marking, 15)
    refuse_if(not state.gray, 16)
    thing = state.object_of(state.gray.pop())
    kinds = state.kinds_of(thing)
    return "pushed", state.shade(word for word, kind in zip(thing.words, kinds) if kind == "object")


def drain(state):
    """Looks at the next entry of the log."""
    refuse_if(not state.marking, 15)
    refuse_if(state.drained == len(state.log), 17)
    state.drained += 1
    return "pushed", state.shade([state.log[state.drained - 1]])


def finish(state):
    """Ends a cycle: what it marked is live."""
    refuse_if(not state.marking, 15)
    undrained = len(state.log) - state.drained
    refuse_if(state.gray or undrained, 18, len(state.gray), undrained)
    for number, region in enumerate(state.regions):
        refuse_if(region and region.pending, 19, number)
    condemned = 0
    for number, region in enumerate(state.regions):
        if region:
            condemned += sum(not thing.mark for thing in region.objects.values())
            objects = {cell: thing._replace(live=thing.mark, mark=False) for cell, thing in region.objects.items()}
            state.regions[number] = region._replace(pending=True, objects=objects)
    state.log, state.drained, state.marking = [], 0, False
    return "condemned", condemned


def sweep(state, number):
    """Removes a region's objects that aren't live."""
    region = state.regions[number] if number < len(state.regions) else None
    refuse_if(region is None or not region.pending, 20, number)
    dead = sorted(cell for cell, thing in region.objects.items() if not thing.live)
    kept = {cell: thing for cell, thing in region.objects.items() if thing.live}
    if kept:
        state.regions[number] = Region(region.cell_size, False, kept, (*reversed(dead), *region.free))
    else:
        state.regions[number] = None
        state.pool = state.pool if number in state.area else (number, *state.pool)
    return "swept", len(dead), not kept


EVENTS = {
    "class": class_event,
    "array": array_event,
    "new": new,
    "newarray": new_array,
    "newprim": new_prim,
    "load": load,
    "store": store,
    "put": put,
    "move": move,
    "clear": clear,
    "snap": snap,
    "mark": mark,
    "drain": drain,
    "finish": finish,
    "sweep": sweep,
}


def applied(state, event):
    """Returns the state after an event, given as its word and its arguments, and the answer. The event may be refused."""
    word, *arguments = event
    after = state.copy()
    return after, EVENTS[word](after, *arguments)
