"""What a recorder knows of the heap: which object has which name, and which slot names which object."""
from __future__ import annotations

from typing import Any, Iterable, NamedTuple, Optional

from .shapes import Shape


class UnknownName(LookupError):
    """No object has this name, or none that a root reaches."""


class Known:
    """An object: its name, its shape, what its slots name, which slots name it, and where its roots are."""

    __slots__ = ("name", "shape", "slots", "holders", "roots")

    def __init__(self, name: Any, shape: Shape) -> None:
        self.name = name
        self.shape = shape
        self.slots: dict[int, Known] = {}
        # In the order of their writing, so that a program has one session, however its objects hash.
        self.holders: dict[tuple[Known, int], None] = {}
        # The spots of its roots, each with its thread's number.
        self.roots: dict[tuple[int, int], None] = {}

    def holds(self, slot: int, other: Optional["Known"]) -> None:
        """Notes what a slot names now."""
        old = self.slots.pop(slot, None)
        if old:
            del old.holders[self, slot]
        if other:
            self.slots[slot] = other
            other.holders[self, slot] = None


class Way(NamedTuple):
    """A way to an object: an object that can be got at once, and the slots that lead on from it, each with what it names."""

    first: Known
    steps: list[tuple[int, Known]]


def way_to(known: Known, near: Iterable[Known]) -> Way:
    """Returns a shortest way to an object from one that has a root, or is near. Raises UnknownName if no such way is there."""
    at_hand = set(near)
    seen: dict[Known, Optional[tuple[int, Known]]] = {known: None}
    queue = [known]
    for each in queue:
        if each.roots or each in at_hand:
            return Way(each, list(steps_down(seen, each)))
        for holder, slot in each.holders:
            if holder not in seen:
                seen[holder] = (slot, each)
                queue.append(holder)
    raise UnknownName(f"{known.name!r}: no root reaches it")


def steps_down(seen: dict[Known, Optional[tuple[int, Known]]], first: Known) -> Iterable[tuple[int, Known]]:
    """Yields the slots that lead on from an object, as a search noted them."""
    step = seen[first]
    while step:
        yield step
        step = seen[step[1]]


class Mirror:
    """The objects that a root may reach, by their names. Those that no root reaches are forgotten now and then."""

    # The least number of objects at which some are forgotten.
    LEAST = 1_000

    def __init__(self) -> None:
        self.names: dict[Any, Known] = {}
        self.limit = self.LEAST

    def add(self, name: Any, shape: Shape) -> Known:
        """Returns a new object of this name. One that had it before can't be named any more."""
        self.names.pop(name, None)
        known = self.names[name] = Known(name, shape)
        return known

    def known(self, name: Any) -> Known:
        """Returns the object of a name, or raises UnknownName."""
        try:
            return self.names[name]
        except KeyError:
            raise UnknownName(f"no object is named {name!r}") from None

    def forget_some(self, rooted: Iterable[Known]) -> None:
        """Forgets what no root reaches, if many objects came since it last did."""
        if len(self.names) >= self.limit:
            self.forget(rooted)

    def forget(self, rooted: Iterable[Known]) -> None:
        """Forgets what no root reaches."""
        reached = dict.fromkeys(rooted)
        for each in (queue := list(reached)):
            for other in each.slots.values():
                if other not in reached:
                    reached[other] = None
                    queue.append(other)
        for each in reached:
            for holder, slot in [named for named in each.holders if named[0] not in reached]:
                del each.holders[holder, slot]
        self.names = {name: known for name, known in self.names.items() if known in reached}
        self.limit = max(self.LEAST, 2 * len(self.names))
