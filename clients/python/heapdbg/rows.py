"""Replies as values. A row is a tuple whose members have the names of its columns.

Rows are read by their columns, never by how a word looks, as a class may be named `null` or `0x7`."""
from __future__ import annotations

from typing import Any, Callable, NamedTuple, Optional, Union


class ObjectId(int):
    """The id of an object, printed as heapdbg prints it."""

    def __str__(self) -> str:
        return f"0x{self:08x}"

    __repr__ = __str__


class Swept(NamedTuple):
    """What a sweep did: how many objects it removed, and whether the region is empty now."""

    dead: int
    emptied: bool


class Collected(NamedTuple):
    """What a whole cycle did: how many objects its finish condemned, and how many its sweeps removed."""

    condemned: int
    swept: int


class Piece(NamedTuple):
    """A piece of a dump, and whether it is the last."""

    data: bytes
    last: bool


class ClassCount(NamedTuple):
    """How many objects a class has, and how many bytes: a row of `histogram`, `garbage`, `kept` and `retained`."""

    objects: int
    bytes: int
    class_name: str


class Holding(NamedTuple):
    """An object, how many objects it dominates, itself among them, and their bytes: a row of `dominators`."""

    id: ObjectId
    objects: int
    bytes: int
    class_name: str


class Dominator(NamedTuple):
    """An object that dominates another."""

    id: ObjectId
    class_name: str


class ClassGrowth(NamedTuple):
    """The objects and bytes of a class at an older moment and at a newer one."""

    class_name: str
    old_objects: int
    old_bytes: int
    new_objects: int
    new_bytes: int


class ObjectDifference(NamedTuple):
    """An object of one of two moments alone: `change` is `"made"` if that is the newer, and `"gone"` if it is the older."""

    id: ObjectId
    change: str


class SlotDifference(NamedTuple):
    """A slot of an object that holds other values at two moments: its object, its number, and both values."""

    id: ObjectId
    slot: int
    old: Union[ObjectId, int, None]
    new: Union[ObjectId, int, None]


class RegisterStep(NamedTuple):
    """The first row of a path: a register, and the object that it names."""

    mutator: int
    register: int
    id: ObjectId


class SlotStep(NamedTuple):
    """A further row of a path: an object, the slot that is followed, and the object that it names."""

    holder: ObjectId
    slot: int
    id: ObjectId


class RegisterReference(NamedTuple):
    """A register that names an object."""

    mutator: int
    register: int


class SlotReference(NamedTuple):
    """A slot that names an object: its object, and its number there."""

    holder: ObjectId
    slot: int


class NullRegister(NamedTuple):
    """A register that is null: `id` is None."""

    mutator: int
    register: int
    id: None

    @property
    def class_name(self) -> None:
        """None, as nothing is named."""
        return None


class Register(NamedTuple):
    """A register, the object that it names, and its class."""

    mutator: int
    register: int
    id: ObjectId
    class_name: str


class Field(NamedTuple):
    """A field of a class: its name and its kind."""

    name: str
    kind: str


class ClassRow(tuple):
    """A class: (number, name, super, "field:kind" ..). The super is a number, "-", or "array" for an array class."""

    @property
    def number(self) -> int:
        """The number of the class."""
        return self[0]

    @property
    def name(self) -> str:
        """Its name."""
        return self[1]

    @property
    def sup(self) -> Union[int, str]:
        """The number of its super, `-`, or `array` for an array class."""
        return self[2]

    @property
    def fields(self) -> list[Field]:
        """Its own fields, in order."""
        return [Field(*text.rsplit(":", 1)) for text in self[3:]]


class ListedObject(NamedTuple):
    """A live object: its id, its class, how many slots it has, and whether no register reaches it."""

    id: ObjectId
    class_name: str
    slots: int
    unreached: bool


class SlotValue(NamedTuple):
    """What a slot holds in some objects of a class, and how many they are."""

    value: Union[ObjectId, int, None]
    objects: int


class SlotRow(NamedTuple):
    """A slot of an object: its number, the field's name (or the index of an element as a text), its kind and what it holds."""

    slot: int
    name: str
    kind: str
    value: Union[ObjectId, int, None]


class TreeRow(NamedTuple):
    """A slot of an object or of one below it: how many levels below, a slot as in `SlotRow`, and the class of the object that it names,
    or None."""

    level: int
    slot: int
    name: str
    kind: str
    value: Union[ObjectId, int, None]
    class_name: Optional[str]


class SlotChange(NamedTuple):
    """A step that changed a slot: the place that it led to, and what the slot held before and after it."""

    place: int
    old: Union[ObjectId, int, None]
    new: Union[ObjectId, int, None]


class SlotWrite(NamedTuple):
    """A step that changed a slot of an object: the place that it led to, the object, and what the slot held before and after it."""

    place: int
    id: ObjectId
    old: Union[ObjectId, int, None]
    new: Union[ObjectId, int, None]


class When(tuple):
    """When something happened: ("place", P), ("older", P), ("reached",) or ("never",). `place` is P, or None."""

    @property
    def word(self) -> str:
        """`place`; `older` if the step is older than the retained ones; `reached` if a register still reaches the object; or `never` if
        no place is the one that was asked for."""
        return self[0]

    @property
    def place(self) -> Optional[int]:
        """The place, or None."""
        return self[1] if len(self) > 1 else None


class PastStep(tuple):
    """A retained step: (place, event, fact ..). SESSIONS.md has the facts of each event: what a step overwrote, and what it
    wrote. The class of a new object is a str."""

    @property
    def place(self) -> int:
        """The place that the step led to."""
        return self[0]

    @property
    def record(self) -> str:
        """What it did: `put`, `store`, `reg`, `new` .."""
        return self[1]

    @property
    def facts(self) -> tuple[Union[int, ObjectId, str, None], ...]:
        """The facts of its record."""
        return tuple(self[2:])


class HeldPin(NamedTuple):
    """An open pin that can be read: its number, its place, `"held"`, and how many pieces it gave."""

    pin: int
    place: int
    state: str
    pieces: int


class LostPin(NamedTuple):
    """An open pin that can't be read any more: its number, its place, `"lost"`, and the cause."""

    pin: int
    place: int
    state: str
    cause: str


class Cells(NamedTuple):
    """The cells of a region in use: its number, the words of a cell, whether it waits to be swept, and a letter for each cell."""

    region: int
    size: int
    waits: bool
    letters: str


class Life(NamedTuple):
    """An object that had an id: its class, the place of the step that made it, `"older"` if none of the retained steps did; the place
    since which no register reached it, `"older"` if none did in any retained state, or None if one did to the last; and the place of
    the step that removed it, or None if it is still there."""

    class_name: str
    born: Union[int, str]
    lost: Union[int, str, None]
    swept: Optional[int]


class EndedCycle(NamedTuple):
    """A cycle that a step ended: the place of the step, how many objects it condemned, and how many of these sweeps removed."""

    place: int
    condemned: int
    swept: int


class RegionRow(NamedTuple):
    """A region in use: its number, the words of a cell, its objects, those that are live, those that aren't, and whether it waits
    to be swept."""

    region: int
    size: int
    used: int
    live: int
    dead: int
    waits: bool

    @property
    def taken(self) -> range:
        """The regions that are taken: this one alone, or those that its one object takes, from this one on."""
        return range(self.region, self.region + max(1, self.size // 1024))


# What turns the words after `ok` and the lines before them into a value, and the words of a row into its values.
Reader = Callable[[list, list], Any]
Row = Callable[[list], tuple]


def number(words: list, _lines: list) -> int:
    """Returns the last word as a number."""
    return int(words[-1])


def nothing(_words: list, _lines: list) -> None:
    """Returns None."""


def loaded(words: list, _lines: list) -> Union[ObjectId, int, None]:
    """Returns an object's id, a value, or None."""
    if words[0] == "null":
        return None
    return ObjectId(words[1], 16) if words[0] == "object" else int(words[1])


def swept(words: list, _lines: list) -> Swept:
    """Returns what a sweep did."""
    return Swept(int(words[1]), words[2:] == ["empty"])


def collected(words: list, _lines: list) -> Collected:
    """Returns what a whole cycle did."""
    return Collected(int(words[1]), int(words[3]))


def bytes_of(_words: list, lines: list) -> bytes:
    """Returns the bytes of data lines."""
    return bytes.fromhex("".join(line[5:] for line in lines if line.startswith("data ")))


def piece(words: list, lines: list) -> Piece:
    """Returns a piece."""
    return Piece(bytes_of(words, lines), words[0] == "last")


def rows_by(row: Row) -> Reader:
    """Returns what turns rows into values, a tuple for each."""
    return lambda _words, lines: [row(line.split()[1:]) for line in lines]


def id_of(word: str) -> Optional[ObjectId]:
    """Returns an id, or None for null."""
    return None if word == "null" else ObjectId(word, 16)


def number_or_id(word: str) -> Union[int, ObjectId, None]:
    """Returns a word of a column that has decimal numbers, ids and null, and no names."""
    return int(word) if word.isdigit() else id_of(word)


def counted(row: list) -> ClassCount:
    """Reads OBJECTS BYTES CLASS."""
    return ClassCount(int(row[0]), int(row[1]), row[2])


def holding(row: list) -> Holding:
    """Reads ID OBJECTS BYTES CLASS."""
    return Holding(id_of(row[0]), int(row[1]), int(row[2]), row[3])


def dominating(row: list) -> Dominator:
    """Reads ID CLASS."""
    return Dominator(id_of(row[0]), row[1])


def grown(row: list) -> ClassGrowth:
    """Reads CLASS OBJECTS BYTES OBJECTS BYTES."""
    return ClassGrowth(row[0], *map(int, row[1:]))


def path_step(row: list) -> tuple:
    """Reads M R ID, or ID SLOT ID."""
    return (RegisterStep if row[0].isdigit() else SlotStep)(*map(number_or_id, row))


def paths_of_rows(words: list, lines: list) -> list:
    """Returns the paths of such rows, each as the list of its steps: a path begins with a register."""
    paths = []
    for step in rows_by(path_step)(words, lines):
        if isinstance(step, RegisterStep):
            paths.append([])
        paths[-1].append(step)
    return paths


def reference(row: list) -> tuple:
    """Reads M R, or ID SLOT."""
    return (RegisterReference if row[0].isdigit() else SlotReference)(*map(number_or_id, row))


def register(row: list) -> tuple:
    """Reads M R null, or M R ID CLASS."""
    if len(row) == 3:
        return NullRegister(int(row[0]), int(row[1]), None)
    return Register(int(row[0]), int(row[1]), ObjectId(row[2], 16), row[3])


def defined(row: list) -> ClassRow:
    """Reads K NAME SUPER FIELD .., where SUPER is a number, `-` or `array`."""
    return ClassRow((int(row[0]), row[1], row[2] if row[2] in ("-", "array") else int(row[2]), *row[3:]))


def listed(row: list) -> ListedObject:
    """Reads ID CLASS SLOTS, or ID CLASS SLOTS unreached."""
    return ListedObject(ObjectId(row[0], 16), row[1], int(row[2]), row[3:] == ["unreached"])


def valued(row: list) -> SlotValue:
    """Reads VALUE OBJECTS, of which VALUE is a number, an id or null."""
    return SlotValue(number_or_id(row[0]), int(row[1]))


def cells_of(row: list) -> Cells:
    """Reads REGION SIZE - LETTERS, or REGION SIZE sweep LETTERS."""
    region, size, waits, letters = row
    return Cells(int(region), int(size), waits == "sweep", letters)


def lived(row: list) -> Life:
    """Reads CLASS BORN LOST SWEPT, of which BORN and LOST are places or `older`, and LOST and SWEPT may be `-`."""
    born, lost, swept = (None if word == "-" else word if word == "older" else int(word) for word in row[1:])
    return Life(row[0], born, lost, swept)


def ended(row: list) -> EndedCycle:
    """Reads PLACE CONDEMNED SWEPT."""
    return EndedCycle(*map(int, row))


def region_of(row: list) -> RegionRow:
    """Reads REGION CELL USED LIVE DEAD -, or REGION CELL USED LIVE DEAD waits."""
    region, size, used, live, dead = map(int, row[:5])
    return RegionRow(region, size, used, live, dead, row[5] == "waits")


def facts_by_name(_words: list, lines: list) -> dict[str, Union[int, str]]:
    """Returns the values of rows by their names: numbers, but for `phase`."""
    rows = (line.split()[1:] for line in lines)
    return {name: value if name == "phase" else int(value) for name, value in rows}


def slot(row: list) -> SlotRow:
    """Reads SLOT NAME KIND VALUE."""
    return SlotRow(int(row[0]), row[1], row[2], id_of(row[3]) if row[2] == "object" else int(row[3]))


def tree_slot(row: list) -> TreeRow:
    """Reads LEVEL SLOT NAME KIND VALUE, or LEVEL SLOT NAME KIND ID CLASS."""
    return TreeRow(int(row[0]), *slot(row[1:5]), row[5] if len(row) == 6 else None)


def changed(row: list) -> SlotChange:
    """Reads PLACE OLD NEW, of which OLD and NEW are numbers, ids and null."""
    return SlotChange(int(row[0]), number_or_id(row[1]), number_or_id(row[2]))


def written(row: list) -> SlotWrite:
    """Reads PLACE ID OLD NEW, of which OLD and NEW are numbers, ids and null."""
    return SlotWrite(int(row[0]), ObjectId(row[1], 16), number_or_id(row[2]), number_or_id(row[3]))


def difference(row: list) -> Union[ObjectDifference, SlotDifference]:
    """Reads ID made, ID gone, or ID SLOT OLD NEW, of which OLD and NEW are numbers, ids and null."""
    if len(row) == 2:
        return ObjectDifference(ObjectId(row[0], 16), row[1])
    return SlotDifference(ObjectId(row[0], 16), int(row[1]), number_or_id(row[2]), number_or_id(row[3]))


def past(row: list) -> PastStep:
    """Reads PLACE RECORD FACT .., whose facts are numbers, ids and null, but for the class at the end of `new`."""
    place, record, *facts = row
    names = facts[4:] if record == "new" else []
    return PastStep((int(place), record, *map(number_or_id, facts[: len(facts) - len(names)]), *names))


def open_pin(row: list) -> tuple:
    """Reads PIN PLACE held PIECES, or PIN PLACE lost CAUSE."""
    pin, place, state, fact = row
    return HeldPin(int(pin), int(place), state, int(fact)) if state == "held" else LostPin(int(pin), int(place), state, fact)


def place_or_older(words: list, _lines: list) -> When:
    """Returns the last words of an answer, such as ("place", 12), ("older", 3), ("reached",) or ("never",)."""
    return When((words[0], *map(int, words[1:])))
