"""Classes and kinds as a recorder knows them, and values as the numbers of a line."""
from __future__ import annotations

import struct
from typing import Any, Mapping, NamedTuple, Union

# The bits of each kind of value.
BITS = {"boolean": 1, "byte": 8, "char": 16, "short": 16, "int": 32, "long": 64}
# How a value of a kind is packed, and how its bits are read.
FLOATS = {"float": (">f", ">I"), "double": (">d", ">Q")}


class Slot(NamedTuple):
    """A slot: its number, and the kind of what it holds."""

    number: int
    kind: str


class ClassShape:
    """A class of instances: its number, and its slots by the names of the fields."""

    def __init__(self, number: int, kinds: Mapping[str, str]) -> None:
        self.number = number
        self.slots = {name: Slot(at, kind) for at, (name, kind) in enumerate(kinds.items())}

    def slot(self, field: Any) -> Slot:
        """Returns the slot of a field, or raises KeyError."""
        return self.slots[field]


class ArrayShape:
    """An array: the kind of its elements, and how many it has."""

    def __init__(self, kind: str, length: int) -> None:
        self.kind = kind
        self.length = length

    def slot(self, field: Any) -> Slot:
        """Returns the slot of an element, or raises IndexError."""
        if not 0 <= field < self.length:
            raise IndexError(f"element {field} of an array of {self.length}")
        return Slot(field, self.kind)


Shape = Union[ClassShape, ArrayShape]


def kind_of(value: Any) -> str:
    """Returns the kind of a field whose first value is this one: `boolean`, `long` or `double` of a bool, an int or a float, and
    else `object`, as the value is then None or a name."""
    for kind, type_of in (("boolean", bool), ("long", int), ("double", float)):
        if isinstance(value, type_of):
            return kind
    return "object"


def number_of(kind: str, value: Any) -> int:
    """Returns the number that stands for a value of a kind: the bits of a float, and negative numbers by their two's complement.
    Raises OverflowError if it doesn't fit there."""
    if kind in FLOATS:
        to_bytes, from_bytes = FLOATS[kind]
        return struct.unpack(from_bytes, struct.pack(to_bytes, value))[0]
    bits = BITS[kind]
    number = ord(value) if isinstance(value, str) else int(value)
    if not -(1 << bits - 1) <= number < 1 << bits:
        raise OverflowError(f"{value!r} is no {kind}")
    return number % (1 << bits)
