"""Moments of a heap: the states that a question can be about."""
from __future__ import annotations

from dataclasses import dataclass
from typing import NamedTuple, Union


@dataclass(frozen=True)
class Now:
    """The current state."""

    def __str__(self) -> str:
        return "-"


@dataclass(frozen=True)
class Place:
    """The retained state that this many steps led to."""

    number: int

    def __str__(self) -> str:
        return f"@{self.number}"


@dataclass(frozen=True)
class Named:
    """The retained state at the place to which this session gave a name."""

    word: str

    def __str__(self) -> str:
        return f"@{self.word}"


@dataclass(frozen=True)
class Pin:
    """The state that an open pin keeps, by the pin's number."""

    number: int

    def __str__(self) -> str:
        return str(self.number)


class PinAt(NamedTuple):
    """A pin that was opened: its number and its place. As a moment it is the state that the pin keeps."""

    pin: int
    place: int


# A moment. None is what the session's `at` says, which is `Now()` unless it says otherwise; it is `Now()` beside another moment.
# A number is that of a pin, and a text is the word of a line, such as `"@120"`.
Moment = Union[Now, Place, Named, Pin, PinAt, None, int, str]


def about(moment: Moment) -> str:
    """Returns a space and the word of a moment in a line, or nothing for None."""
    return "" if moment is None else f" {word_of_moment(moment)}"


def word_of_moment(moment: Moment) -> str:
    """Returns the word of a moment in a line, `-` for None."""
    if moment is None:
        return "-"
    return str(moment.pin if isinstance(moment, PinAt) else moment)
