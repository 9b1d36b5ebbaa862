"""Where a recorder's lines go: to a file, or to a session."""
from __future__ import annotations

from typing import Any, Sequence

from .faults import word_of
from .session import PART_BYTES, Session


class FileSink:
    """A file of lines, for `heapdbg explore --from`. Its heap begins empty, so classes and pins are numbered as they come."""

    def __init__(self, path: Any) -> None:
        self.file = open(path, "w", encoding="ascii", newline="\n", buffering=PART_BYTES)
        self.classes = 0
        self.pins = 0

    def tell(self, line: str) -> None:
        """Writes a line."""
        self.file.write(line + "\n")

    def define(self, name: str, fields: Sequence[tuple[str, str]]) -> int:
        """Defines a class of instances, and returns its number."""
        self.tell(" ".join(["class", word_of(name), "-", *(word_of(f"{field}:{kind}") for field, kind in fields)]))
        self.classes += 1
        return self.classes - 1

    def define_array(self, name: str) -> int:
        """Defines a class of object arrays, and returns its number."""
        self.tell(f"array {word_of(name)}")
        self.classes += 1
        return self.classes - 1

    def pin(self) -> int:
        """Opens a pin on the current state, and returns its number."""
        self.tell("open -")
        self.pins += 1
        return self.pins

    def flush(self) -> None:
        """Has all lines in the file."""
        self.file.flush()

    def end(self) -> None:
        """Closes the file."""
        self.file.close()


class SessionSink:
    """A session, such as that of a served heap. Nothing but new classes and pins waits for an answer."""

    def __init__(self, session: Session) -> None:
        self.session = session
        self.tell = session.tell_event
        self.define = session.define_class
        self.define_array = session.define_array
        self.flush = session.flush

    def pin(self) -> int:
        """Opens a pin on the current state, and returns its number."""
        return self.session.open().pin

    def end(self) -> None:
        """Ends the session."""
        self.session.end()
