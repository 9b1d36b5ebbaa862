"""The lines of a session as methods."""
from __future__ import annotations

import os
from typing import Any, Optional, Sequence, Union

from .faults import BadCommand, word_of
from .moments import Moment, Named, Now, Pin, PinAt, Place, about, word_of_moment
from .rows import (
    Cells,
    ClassCount,
    ClassGrowth,
    ClassRow,
    Collected,
    Dominator,
    EndedCycle,
    HeldPin,
    Holding,
    Life,
    ListedObject,
    LostPin,
    NullRegister,
    ObjectDifference,
    ObjectId,
    PastStep,
    Piece,
    Reader,
    RegionRow,
    Register,
    RegisterReference,
    RegisterStep,
    SlotChange,
    SlotDifference,
    SlotReference,
    SlotRow,
    SlotStep,
    SlotValue,
    SlotWrite,
    Swept,
    TreeRow,
    When,
    bytes_of,
    cells_of,
    changed,
    collected,
    counted,
    defined,
    difference,
    dominating,
    ended,
    facts_by_name,
    grown,
    holding,
    listed,
    lived,
    loaded,
    number,
    open_pin,
    past,
    path_step,
    paths_of_rows,
    piece,
    place_or_older,
    reference,
    region_of,
    register,
    rows_by,
    slot,
    swept,
    tree_slot,
    valued,
    written,
)


def pinned(words: list, _lines: list) -> PinAt:
    """Returns a pin and its place."""
    return PinAt(int(words[1]), int(words[3]))


# The name of a pin.
PinName = Union[Pin, PinAt, int]

# A class or a slot: its number, or the name of the class or the field.
Name = Union[int, str]

# More rows than any answer has: the number of a pin alone would be taken for a number of rows.
MOST = (1 << 64) - 1


def word_of_name(name: Name) -> str:
    """Returns the word of a class or a slot in a line."""
    return str(name) if isinstance(name, int) else word_of(name)


def between(older: Moment, newer: Moment) -> str:
    """Returns two moments as the words behind that of a line, or nothing where neither is given: the state that `at` says, and the
    current one."""
    return "" if older is None and newer is None else f" {word_of_moment(older)} {word_of_moment(newer)}"


def fields_from(of: int, along: Sequence[Name]) -> str:
    """Returns the word of an object with fields behind it. A field with a dot in its name can be given by its number alone."""
    dotted = [field for field in along if "." in str(field)]
    if dotted:
        raise BadCommand(f"the name of a field has a dot: {dotted[0]!r}")
    return ".".join([str(ObjectId(of)), *map(word_of_name, along)])


class Calls:
    """The lines of a session as methods. `send` sends a line and returns what becomes of its reply, and `order` does so for a
    line whose reply is only `ok`. The types are those of a session's values: a batch returns a `Later` instead of each."""

    def send(self, line: str, reader: Reader) -> Any:
        """Sends a line whose reply `reader` turns into a value."""
        raise NotImplementedError

    def order(self, line: str) -> Any:
        """Sends a line whose reply is only `ok`."""
        raise NotImplementedError

    # ---- classes and objects

    def define_class(self, name: str, fields: Sequence[tuple[str, str]] = (), sup: Optional[Name] = None) -> int:
        """Defines a class with fields (name, kind), below another if one is given, and returns its number."""
        texts = [word_of(f"{field}:{kind}") for field, kind in fields]
        return self.send(" ".join(["class", word_of(name), "-" if sup is None else word_of_name(sup), *texts]), number)

    def define_array(self, name: str) -> int:
        """Defines a class of object arrays, and returns its number."""
        return self.send(f"array {word_of(name)}", number)

    def new(self, m: int, r: int, of_class: Name) -> ObjectId:
        """Makes an instance of a class in register `r` of mutator `m`, and returns its id."""
        return self.send(f"new {m} {r} {word_of(str(of_class))}", loaded)

    def new_array(self, m: int, r: int, of_class: Name, length: int) -> ObjectId:
        """Makes an object array of a class, and returns its id."""
        return self.send(f"newarray {m} {r} {word_of_name(of_class)} {length}", loaded)

    def new_values(self, m: int, r: int, kind: str, length: int) -> ObjectId:
        """Makes an array of values of a kind, and returns its id."""
        return self.send(f"newprim {m} {r} {word_of(kind)} {length}", loaded)

    def load(self, m: int, to: int, source: int, slot: Name) -> Union[ObjectId, int, None]:
        """Reads a slot: returns a value, or an id or None, which is then in register `to`."""
        return self.send(f"load {m} {to} {source} {word_of_name(slot)}", loaded)

    def store(self, m: int, target: int, slot: Name, source: int) -> None:
        """Writes what register `source` holds to a reference slot of the object in register `target`."""
        return self.order(f"store {m} {target} {word_of_name(slot)} {source}")

    def put(self, m: int, target: int, slot: Name, value: int) -> None:
        """Writes a value slot of the object in register `target`."""
        return self.order(f"put {m} {target} {word_of_name(slot)} {value}")

    def move(self, m: int, to: int, from_m: int, source: int) -> None:
        """Copies a register of mutator `from_m` to one of mutator `m`."""
        return self.order(f"move {m} {to} {from_m} {source}")

    def clear(self, m: int, r: int) -> None:
        """Makes a register null."""
        return self.order(f"clear {m} {r}")

    # ---- collecting

    def snap(self) -> int:
        """Begins a cycle, and returns how many objects were marked."""
        return self.send("snap", number)

    def mark(self) -> int:
        """Looks at a gray object, and returns how many were marked."""
        return self.send("mark", number)

    def drain(self) -> int:
        """Looks at an entry of the log, and returns how many objects were marked."""
        return self.send("drain", number)

    def finish(self) -> int:
        """Ends the cycle, and returns how many objects aren't live."""
        return self.send("finish", number)

    def sweep(self, region: int) -> Swept:
        """Removes a region's objects that aren't live, and returns a `Swept`."""
        return self.send(f"sweep {region}", swept)

    # ---- the past and dumps

    def rewind(self, by: Union[int, Place, Named]) -> int:
        """Undoes this many of the last steps, or those since a place, and returns the place."""
        return self.send(f"rewind {by}", number)

    def forward(self, by: Union[int, Place, Named]) -> int:
        """Takes this many of the steps again that rewinds undid, or those up to a place, and returns the place. The heap has to answer
        questions: `explore`, or `serve --questions 1`; a served heap refuses it."""
        return self.send(f"forward {by}", number)

    def open(self, place: Union[Place, Named, Now, int, None] = None) -> PinAt:
        """Opens a pin on a retained place, or on the current state, and returns a `PinAt`."""
        return self.send(f"open {word_of_moment(place)}", pinned)

    def piece(self, pin: PinName) -> Piece:
        """Returns the next `Piece` of a pin's dump."""
        return self.send(f"piece {word_of_moment(pin)}", piece)

    def dump(self, pin: Union[PinName, Now, None] = None) -> bytes:
        """Returns the bytes of a pin's dump from the next piece on, or those of the current state."""
        return self.send(f"dump {word_of_moment(pin)}", bytes_of)

    def close(self, pin: PinName) -> None:
        """Closes a pin."""
        return self.order(f"close {word_of_moment(pin)}")

    def keep(self, pin: PinName) -> None:
        """Has a pin of this session stay open when the session ends. Only a heap that is served with `--stay 1` knows this line."""
        return self.order(f"keep {word_of_moment(pin)}")

    # ---- questions, of a heapdbg that answers them

    def at(self, moment: Union[Place, Named, Now, None] = None) -> int:
        """Sets the state that questions of this session are about if they are given no moment: the retained state at a place, or the
        current one. Returns its place."""
        return self.send(f"at {word_of_moment(moment)}", number)

    def name(self, word: str) -> int:
        """Gives a name to the place of the current state, in this session, and returns the place: `Named(word)` is a moment then. A
        name is 1 to 64 ASCII letters, digits, `_`, `-` and `.`, the first a letter."""
        return self.send(f"name {word_of(word)}", number)

    def write_dump(self, path: Union[str, "os.PathLike[str]"], moment: Moment = None) -> int:
        """Has heapdbg write the dump of a state to a new file, and returns the file's size. A path that isn't whole begins in the
        folder of heapdbg, and none has a space. Only `explore` over a heap of its own writes files."""
        return self.send(f"write{about(moment)} {word_of(os.fspath(path))}", number)

    def write_picture(self, path: Union[str, "os.PathLike[str]"], moment: Moment = None) -> int:
        """The same for a picture of the regions of a moment. That of a moment before now shows no object as dead, marked or gray."""
        return self.send(f"draw{about(moment)} {word_of(os.fspath(path))}", number)

    def show(self, moment: Moment, of: int, first: int = 0, count: Optional[int] = None, along: Sequence[Name] = ()) -> list[SlotRow]:
        """Returns a `SlotRow` for each slot of an object, or for each from the slot `first` on: for `count` of these, if there are
        as many. With fields, by their names or numbers, it is the object to which they lead from this one, one after another."""
        line = f"show{about(moment)} {fields_from(of, along)}"
        if first or count is not None:
            line += f" {first} {MOST if count is None else count}"
        return self.send(line, rows_by(slot))

    def tree(self, moment: Moment, of: int, depth: int, along: Sequence[Name] = ()) -> list[TreeRow]:
        """Returns a `TreeRow` for each slot of an object, and behind each those of the object that it names, `depth` levels down, 0 to
        8. With fields it is the object to which they lead from this one, as for `show`."""
        return self.send(f"show{about(moment)} {fields_from(of, along)} {depth}", rows_by(tree_slot))

    def registers(self, moment: Moment = None) -> list[Union[Register, NullRegister]]:
        """Returns a `Register` for each register that names an object, and a `NullRegister` for each other."""
        return self.send(f"registers{about(moment)}", rows_by(register))

    def classes(self, moment: Moment = None) -> list[ClassRow]:
        """Returns a `ClassRow` for each class."""
        return self.send(f"classes{about(moment)}", rows_by(defined))

    def objects(
        self, moment: Moment = None, of_class: Optional[Name] = None, slot: Optional[Name] = None, value: Union[ObjectId, int, None] = None
    ) -> list[ListedObject]:
        """Returns a `ListedObject` for each live object, in the order of a dump: for those of a class, or for those of them with this
        value in a slot, None for null. A class and a slot are numbers or names; a text of digits is a number. With the number of a
        class alone None is `Now()`, since a number alone would be a pin."""
        alone = of_class is not None and slot is None and str(of_class).isdigit()
        words = [] if moment is None and not alone else [word_of_moment(moment)]
        if of_class is not None:
            words.append(word_of(str(of_class)))
        if slot is not None:
            words += [word_of(str(slot)), "null" if value is None else str(value)]
        return self.send(" ".join(["objects", *words]), rows_by(listed))

    def values(self, moment: Moment, of_class: Name, slot: Name) -> list[SlotValue]:
        """Returns a `SlotValue` for each value that a slot has in the objects of a class: those of most objects first."""
        return self.send(f"values{about(moment)} {word_of(str(of_class))} {word_of(str(slot))}", rows_by(valued))

    def histogram(self, moment: Moment = None) -> list[ClassCount]:
        """Returns a `ClassCount` for each class that has objects, the most bytes first."""
        return self.send(f"histogram{about(moment)}", rows_by(counted))

    def growth(self, older: Moment = None, newer: Moment = None) -> list[ClassGrowth]:
        """Returns a `ClassGrowth` for each class that differs between two moments; without any, between that of `at` and `Now()`."""
        return self.send(f"growth{between(older, newer)}", rows_by(grown))

    def kept(self, older: Moment = None, newer: Moment = None) -> list[ClassCount]:
        """Returns a `ClassCount` for each class of the objects that registers reach at the newer moment and that weren't there at
        the older one."""
        return self.send(f"kept{between(older, newer)}", rows_by(counted))

    def diff(self, older: Moment = None, newer: Moment = None) -> list[Union[ObjectDifference, SlotDifference]]:
        """Returns what differs between the objects of two moments, by id: an `ObjectDifference` for each object of one of them alone,
        and a `SlotDifference` for each slot of an object of both that holds other values."""
        return self.send(f"diff{between(older, newer)}", rows_by(difference))

    def path(self, moment: Moment, to: int) -> list[Union[RegisterStep, SlotStep]]:
        """Returns a shortest path to an object: a `RegisterStep`, then a `SlotStep` for each slot."""
        return self.send(f"path{about(moment)} {ObjectId(to)}", rows_by(path_step))

    def paths(self, moment: Moment, to: int, most: int) -> list[list[Union[RegisterStep, SlotStep]]]:
        """Returns up to `most` paths to an object, 1 to 256, each as `path` has it. No two start at the same register by the same
        slot: each is the shortest that starts like none of those before it."""
        return self.send(f"paths{about(moment)} {ObjectId(to)} {most}", paths_of_rows)

    def retained(self, moment: Moment, of: int) -> list[ClassCount]:
        """Returns a `ClassCount` for each class of the objects that are reached, and wouldn't be without this one, itself
        among them. Those of several objects may overlap."""
        return self.send(f"retained{about(moment)} {ObjectId(of)}", rows_by(counted))

    def dominators(self, moment: Moment = None, most: Optional[int] = None, of: Optional[int] = None) -> list[Holding]:
        """Returns a `Holding` for each object that a register reaches and no other object dominates, or, with an object, for each
        that it dominates immediately: the most bytes first; at most `most`, or all. These rows overlap nowhere."""
        words = about(moment) + ("" if of is None else f" {ObjectId(of)}")
        if words.strip().isdigit() and most is None:
            most = MOST
        return self.send(f"dominators{words}" + ("" if most is None else f" {most}"), rows_by(holding))

    def dominator(self, moment: Moment, of: int) -> list[Dominator]:
        """Returns a `Dominator` for each other object without which an object wouldn't be reached, each the immediate dominator of
        the one before."""
        return self.send(f"dominator{about(moment)} {ObjectId(of)}", rows_by(dominating))

    def referrers(self, moment: Moment, of: int) -> list[Union[RegisterReference, SlotReference]]:
        """Returns what names an object: a `RegisterReference` for each register, then a `SlotReference` for each slot."""
        return self.send(f"referrers{about(moment)} {ObjectId(of)}", rows_by(reference))

    def garbage(self, moment: Moment = None) -> list[ClassCount]:
        """Returns a `ClassCount` for each class with live objects that no register reaches."""
        return self.send(f"garbage{about(moment)}", rows_by(counted))

    def wrote(self, of: int, slot: Name, moment: Moment = None) -> When:
        """Returns the `When` of the newest retained step that changed a slot: ("place", P), or ("older", P). With a `Place` it is
        about the object and the steps up to there."""
        return self.send(f"wrote{about(moment)} {ObjectId(of)} {word_of(str(slot))}", place_or_older)

    def watch(self, of: int, slot: Name, moment: Moment = None) -> list[SlotChange]:
        """Returns a `SlotChange` for each retained step that changed a slot since its object was made, the oldest first. With a
        `Place` it is about the object and the steps up to there."""
        return self.send(f"watch {ObjectId(of)} {word_of(str(slot))}{about(moment)}", rows_by(changed))

    def writes(self, of_class: Name, slot: Name, after: Moment = None, to: Moment = None) -> list[SlotWrite]:
        """Returns a `SlotWrite` for each retained step that changed a slot of some object of a class, the oldest first. With a
        `Place` it is about the steps after it, up to a second one if there is one."""
        span = f" {word_of_moment(after)} {word_of_moment(to)}" if after is not None else ""
        return self.send(f"writes {word_of(str(of_class))} {word_of(str(slot))}{span}", rows_by(written))

    def when(
        self, of_class: Name, slot: Name, value: Union[ObjectId, int, None], one: Moment = None, other: Moment = None
    ) -> When:
        """Returns the `When` of the first retained place at which an object of a class had this value in a slot, None for null:
        ("place", P), or ("never",). With a `Place` it is about the places from there to the current one, or to a second one."""
        places = [] if one is None else [word_of_moment(one), word_of_moment(other)]
        words = [word_of(str(of_class)), word_of(str(slot)), "null" if value is None else str(value)]
        return self.send(" ".join(["when", *places, *words]), place_or_older)

    def when_count(self, of_class: Name, count: int, one: Moment = None, other: Moment = None) -> When:
        """Returns the `When` of the first retained place at which a class had this many objects or more: ("place", P), or ("never",).
        With a `Place` it is about the places from there to the current one, or to a second one."""
        places = [] if one is None else [word_of_moment(one), word_of_moment(other)]
        words = ["count", word_of(str(of_class)), str(count)]
        return self.send(" ".join(["when", *places, *words]), place_or_older)

    def born(self, of: int, moment: Moment = None) -> When:
        """Returns the `When` of the step that made an object: ("place", P), or ("older", P). With a `Place` it is about the object
        and the steps up to there."""
        return self.send(f"born{about(moment)} {ObjectId(of)}", place_or_older)

    def dropped(self, of: int, moment: Moment = None) -> When:
        """Returns the `When` of the step after which no register reached an object: ("place", P), ("reached",) or ("older", P).
        With a `Place` it is about the object and the steps up to there."""
        return self.send(f"dropped{about(moment)} {ObjectId(of)}", place_or_older)

    def history(self, count: int, moment: Moment = None) -> list[PastStep]:
        """Returns a `PastStep` for each of the newest retained steps, or of those that led to a `Place`, the newest first. A pin has
        no history."""
        return self.send(f"history{about(moment)} {count}", rows_by(past))

    def life(self, of: int) -> list[Life]:
        """Returns a `Life` for each object that had an id in a retained state, the oldest first."""
        return self.send(f"life {ObjectId(of)}", rows_by(lived))

    def cycles(self) -> list[EndedCycle]:
        """Returns an `EndedCycle` for each retained step that ended a cycle, the oldest first."""
        return self.send("cycles", rows_by(ended))

    def pins(self) -> list[Union[HeldPin, LostPin]]:
        """Returns a `HeldPin` or a `LostPin` for each open pin."""
        return self.send("pins", rows_by(open_pin))

    def cells(self) -> list[Cells]:
        """Returns `Cells` of each region in use: a letter is `.` for a free cell, `o` for a live object, `m` for a marked one, `g`
        for a gray one, and `x` for one that isn't live."""
        return self.send("cells", rows_by(cells_of))

    def regions(self, moment: Moment = None) -> list[RegionRow]:
        """Returns a `RegionRow` for each region in use. A pin stands for its place, which must be retained."""
        return self.send(f"regions{about(moment)}", rows_by(region_of))

    def heap_status(self) -> dict[str, Union[int, str]]:
        """Asks `status`, and returns a dict of numbers, but for "phase", which is "idle" or "marking": "place", "retained", "gray",
        "undrained", "unswept", "regions", and of a served heap "acts"."""
        return self.send("status", facts_by_name)

    def collect(self) -> Collected:
        """Runs a whole cycle, or finishes the one that runs, and returns what it did as `Collected`. It changes the
        heap."""
        return self.send("collect", collected)
