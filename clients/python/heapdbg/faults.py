"""What is raised instead of a reply: a refusal, a line that isn't known, the end of a session."""
from __future__ import annotations

import re
from typing import Iterable, NamedTuple, Optional, Union

# What a line may hold, and a word of it. A line feed in a line would make it two, and shift all later replies.
LINE = re.compile(r"[ -~]*")
WORD = re.compile(r"[!-~]+")
QUESTIONS = """show registers classes objects values histogram growth kept diff path paths retained dominators dominator referrers garbage wrote watch writes when born dropped
life history cycles pins cells regions status collect forward at name help""".split()

# The lines that write files.
FILES = "write draw".split()


class NotDoneFacts(NamedTuple):
    """The facts of 18 NotDone: how many objects are gray, and how many entries of the log are left."""

    gray: int
    undrained: int


class RegionFact(NamedTuple):
    """The fact of 19 SweepPending and of 20 NothingToSweep: the region."""

    region: int


class TooFarFacts(NamedTuple):
    """The facts of 21 TooFar: how many steps were to be undone, and how many are retained."""

    asked: int
    retained: int


class NothingToRedoFacts(NamedTuple):
    """The facts of 29 NothingToRedo: how many steps were to be taken again, and how many are undone."""

    asked: int
    left: int


class LostFact(NamedTuple):
    """The fact of 23 Lost: `Rewound`, `Memory`, or of a served heap `Closed`."""

    cause: str


# The facts of a refusal, by its number. Refusals of other numbers have none.
FACTS = {18: NotDoneFacts, 19: RegionFact, 20: RegionFact, 21: TooFarFacts, 23: LostFact, 29: NothingToRedoFacts}


def facts_of(number: int, words: Iterable[str]) -> tuple[Union[int, str], ...]:
    """Returns the facts of a refusal by their names, or as a tuple if their names aren't known."""
    facts = tuple(int(word) if word.isdigit() else word for word in words)
    named = FACTS.get(number)
    return named(*facts) if named and len(named._fields) == len(facts) else facts


class Refused(Exception):
    """A line that was refused, and changed nothing: the refusal's number, its name and its facts. `facts` is a tuple whose
    members have names: `refused.facts.region`. `others` are the further faults of lines whose answers nobody waited for."""

    def __init__(self, line: str, number: int, name: str, facts: tuple[Union[int, str], ...], data: bytes = b"") -> None:
        super().__init__(" ".join(map(str, (f"{line}: {number} {name}", *facts))))
        self.line = line
        self.number = number
        self.name = name
        self.facts = facts
        # The bytes of the dump that came before the refusal.
        self.data = data
        self.others: tuple[Fault, ...] = ()


class BadCommand(ValueError):
    """A line that heapdbg's grammar doesn't know, or one that can't be sent: without words, with other bytes than those from
    space to `~`, `end` or a comment. `others` are as those of `Refused`."""

    def __init__(self, line: str) -> None:
        words = line.split()
        asks = " (heapdbg explore answers questions, and so do other commands with --questions 1)"
        files = " (heapdbg explore writes files, without --page and --port)"
        super().__init__(repr(line) + (asks if words[:1] and words[0] in QUESTIONS else files if words[:1] and words[0] in FILES else ""))
        self.line = line
        self.others: tuple[Fault, ...] = ()


class Ended(EOFError):
    """The session ended before it answered. `word` says how: `cut`, `long`, `read` or `reads`, or None if nothing was said.
    `status` is the exit status of the command, and `text` what it wrote to standard error, if `Session.run` or
    `Session.explore` started it."""

    def __init__(self, line: str, word: Optional[str], status: Optional[int] = None, text: str = "") -> None:
        how = [f" ({word})" if word else "", f", status {status}" if status is not None else "", f": {text}" if text else ""]
        super().__init__(f"{line}: the session ended" + "".join(how))
        self.line = line
        self.word = word
        self.status = status
        self.text = text


# What the answer to a line may be raised as.
Fault = Union[Refused, BadCommand]


def word_of(text: str) -> str:
    """Returns a text that is a word of a line, or raises BadCommand."""
    if not WORD.fullmatch(text):
        raise BadCommand(text)
    return text


def sendable(line: str) -> str:
    """Returns a line that has one reply, or raises BadCommand."""
    words = line.split(None, 1)
    if not LINE.fullmatch(line) or not words or words == ["end"] or words[0].startswith("#"):
        raise BadCommand(line)
    return line
