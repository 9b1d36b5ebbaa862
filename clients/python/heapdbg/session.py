"""Sessions: lines out, replies in."""
from __future__ import annotations

import contextlib
import io
import os
import re
import subprocess
import tempfile
from typing import TYPE_CHECKING, Any, BinaryIO, Callable, Iterator, NamedTuple, Optional

from .calls import Calls, PinName
from .connections import SecretFile, opened
from .faults import BadCommand, Ended, Fault, Refused, facts_of, sendable
from .rows import Reader, bytes_of, nothing

# The most bytes of lines that are sent together. While the replies to a part are read, the next part may be under way: two fit
# into any pipe or socket, so neither side waits for the other for ever.
PART_BYTES = 16_384
# The seconds that a program has to end in once its session has.
LAST_SECONDS = 10
# How many faults are kept of lines whose answers nobody waited for.
MOST_FAULTS = 100
# Lines that begin with a word and end each with LF.
LINES = re.compile(r"[ -~\n]*")


class Later:
    """The reply to a line of a batch: its value once the batch has ended."""

    __slots__ = ("line", "reader", "outcome")

    def __init__(self, line: str, reader: Reader) -> None:
        self.line = line
        self.reader = reader
        # The value and the fault, once the reply is there.
        self.outcome: Optional[tuple[Any, Optional[Exception]]] = None

    @property
    def done(self) -> bool:
        """Whether the reply is there."""
        return self.outcome is not None

    @property
    def value(self) -> Any:
        """The reply as a value. Raises what the call would have raised."""
        if not self.outcome:
            raise RuntimeError(f"{self.line}: the batch has not ended")
        value, fault = self.outcome
        if fault:
            raise fault
        return value


# What becomes of a line that was answered `ok`.
OUTCOME = (None, None)


class Part(NamedTuple):
    """Lines that were sent together, a `Later` for each if they are those of a batch, and whether `ok` is all that each wants."""

    lines: list[str]
    laters: Optional[list[Later]]
    plain: bool


if TYPE_CHECKING:

    class BatchCalls:
        """The calls of a batch, each of which returns a `Later`."""

        def __getattr__(self, name: str) -> Callable[..., "Later"]: ...

else:
    BatchCalls = Calls


class Batch(BatchCalls):
    """Lines that are sent many at once. Each call returns a `Later`."""

    def __init__(self, session: "Session") -> None:
        self.session = session
        self.waiting: list[Later] = []
        self.size = 0
        self.plain = True

    def send(self, line: str, reader: Reader) -> Later:
        later = Later(sendable(line), reader)
        self.plain = False
        self.waiting.append(later)
        self.size += len(line) + 1
        if self.size >= PART_BYTES:
            self.post()
        return later

    def order(self, line: str) -> Later:
        later = Later(line, nothing)
        self.waiting.append(later)
        self.size += len(line) + 1
        if self.size >= PART_BYTES:
            self.post()
        return later

    def post(self) -> None:
        """Sends the lines that wait."""
        part = Part([later.line for later in self.waiting], self.waiting, self.plain)
        self.waiting, self.size, self.plain = [], 0, True
        if part.lines:
            try:
                self.session.post()
                self.session.send_part(part)
            except Ended as fault:
                for later in part.laters or ():
                    later.outcome = later.outcome or (None, fault)

    def flush(self) -> None:
        """Sends the lines that wait, and reads the replies to all lines."""
        self.post()
        with contextlib.suppress(Ended):
            self.session.settle()


class Session(Calls):
    """A session with a heapdbg.

    Each call sends a line and waits for its reply, unless the session is `batched`. Then `put`, `store`, `move`, `clear` and
    `close`, whose replies say only `ok`, return at once, and so does `tell` in any session. Their lines are sent, in order, once
    there are 16,384 bytes of them, before the line of the next call that waits, by `flush`, and by `end`. The first of them that
    was refused is raised, with its line, by the next call that waits, before that sends its own line, by `flush`, or by `end`
    and the end of a `with` block that no other exception ended; lines after it are run all the same, and `others` has what else
    was refused. Only `Ended` may come from any call."""

    def __init__(
        self, reader: BinaryIO, writer: BinaryIO, stop: Optional[Callable[[], Any]] = None, batched: bool = False
    ) -> None:
        """A session over two binary streams. `stop` is called when the session ends."""
        self.reader = reader
        self.writer = writer
        self.stop = stop
        self.batched = batched
        # The exit status of a command, once the session has ended, and what it had written to standard error at its end.
        self.status: Any = None
        self.last_text = ""
        # The lines that are to be sent together, and their bytes; the parts that were sent and whose replies weren't read.
        self.unsent: list[str] = []
        self.unsent_bytes = 0
        self.unread: list[Part] = []
        # What was read beyond the last reply that was looked at.
        self.front = io.BytesIO()
        # What is to be raised of lines whose answers nobody waited for.
        self.faults: list[Fault] = []
        # Whether the reply to a line was not read to its end, and whether the session was ended.
        self.broken = False
        self.over = False
        self.child: Optional["subprocess.Popen[bytes]"] = None
        self.told: Optional[BinaryIO] = None

    @classmethod
    def run(cls, *command: str, stderr: Any = None, batched: bool = False) -> "Session":
        """Starts a command, such as `Session.run("heapdbg", "explore", "--keep", "4096")`. What it writes to standard error is
        kept, and stands in `Ended` and in `text`, unless `stderr` says otherwise: it is what subprocess makes of it."""
        told = tempfile.TemporaryFile() if stderr is None else None
        child = subprocess.Popen(command, stdin=subprocess.PIPE, stdout=subprocess.PIPE, stderr=told or stderr)
        assert child.stdin and child.stdout
        session = cls(child.stdout, child.stdin, child.wait, batched)
        session.child, session.told = child, told
        return session

    @classmethod
    def explore(
        cls,
        program: str = "heapdbg",
        *,
        regions: Optional[int] = None,
        mutators: Optional[int] = None,
        keep: Optional[int] = None,
        wide: bool = False,
        area: Optional[int] = None,
        time: Optional[int] = None,
        ids: Optional[int] = None,
        load: Optional[str] = None,
        hprof: Optional[str] = None,
        then: Optional[str] = None,
        page: Optional[int] = None,
        stderr: Any = None,
        batched: bool = True,
    ) -> "Session":
        """Starts `heapdbg explore` on a heap of its own, with these options; `load` is the path of a file of lines that run first
        (`--from`), `hprof` that of a heap dump whose heap is made first (`--hprof`), `then` that of a later one (`--then`), and the
        address of a `page` is in `text` after the first reply. As nobody else acts on this heap, the session is batched unless
        `batched` is False."""
        options = dict(regions=regions, area=area, mutators=mutators, keep=keep, time=time, ids=ids, page=page)
        words = [word for name, value in options.items() if value is not None for word in (f"--{name}", str(value))]
        words += ["--wide", "1"] if wide else []
        words += [] if load is None else ["--from", str(load)]
        words += [] if hprof is None else ["--hprof", str(hprof)]
        words += [] if then is None else ["--then", str(then)]
        return cls.run(program, "explore", *words, stderr=stderr, batched=batched)

    @classmethod
    def connect(
        cls, port: int, host: str = "127.0.0.1", timeout: Optional[float] = None, secret: SecretFile = None, batched: bool = False
    ) -> "Session":
        """Connects to a `heapdbg serve`. `secret` is the path of the file whose word that heap asks for, if it asks for one."""
        connection = opened(port, host, timeout, secret)
        return cls(connection.makefile("rb"), connection.makefile("wb"), connection.close, batched)

    def __enter__(self) -> "Session":
        return self

    def __exit__(self, kind: Any, *_fault: object) -> None:
        if kind is None:
            self.end()
        else:
            with contextlib.suppress(Refused, BadCommand, Ended):
                self.end()

    # ---- lines whose answers are waited for

    def send(self, line: str, reader: Reader) -> Any:
        sendable(line)
        self.flush()
        self.raise_if_over(line)
        self.write(line + "\n")
        self.broken = True
        before, last = self.reply(line, self.next_line())
        self.broken = False
        return self.value_of(line, reader, before, last)

    def say(self, line: str) -> list[str]:
        """Sends any line that has a reply, and returns the reply's lines as they came."""
        return self.send(line, lambda words, before: [*before, " ".join(["ok", *words])])

    # ---- lines whose answers aren't waited for

    def order(self, line: str) -> None:
        if not self.batched:
            return self.send(line, nothing)
        self.unsent.append(line)
        self.unsent_bytes += len(line) + 1
        if self.unsent_bytes >= PART_BYTES:
            self.post()

    def tell(self, line: str) -> None:
        """Sends any line that has a reply, and doesn't wait for it."""
        self.tell_event(sendable(line))

    def tell_event(self, line: str) -> None:
        """Sends a line that is known to be one, and doesn't wait for its reply."""
        self.unsent.append(line)
        self.unsent_bytes += len(line) + 1
        if self.unsent_bytes >= PART_BYTES:
            self.post()

    def post(self) -> None:
        """Sends the lines that were collected."""
        lines, self.unsent, self.unsent_bytes = self.unsent, [], 0
        if lines:
            self.send_part(Part(lines, None, True))

    def flush(self) -> None:
        """Sends the lines that were collected, and waits for the replies to all. Raises the first fault, if there is one."""
        self.settle()
        if self.faults:
            first, *others = self.faults
            self.faults = []
            first.others = tuple(others)
            raise first

    def settle(self) -> None:
        """Sends the lines that were collected, and reads the replies to all."""
        self.post()
        while self.unread:
            self.read_part()

    def send_part(self, part: Part) -> None:
        """Sends lines, and reads the replies to those sent before them. Raises Ended if the session was ended, or if the reply
        to an earlier line was not read to its end (a timeout, an interrupt), since later replies would be taken for others."""
        self.raise_if_over(part.lines[0])
        text = "\n".join(part.lines) + "\n"
        if not LINES.fullmatch(text) or text.count("\n") != len(part.lines):
            self.send_one_by_one(part)
            return
        self.write(text)
        self.unread.append(part)
        if len(self.unread) > 1:
            self.read_part()

    def send_one_by_one(self, part: Part) -> None:
        """Sends the lines of a part that can be sent, each once the reply to the one before it was read, and notes the faults of
        the others."""
        for at, line in enumerate(part.lines):
            laters = part.laters[at : at + 1] if part.laters else None
            try:
                self.send_part(Part([sendable(line)], laters, part.plain))
                self.read_part()
            except BadCommand as fault:
                if laters:
                    laters[0].outcome = (None, fault)
                else:
                    self.note(fault)

    def note(self, fault: Fault) -> None:
        """Keeps a fault until it is raised, unless too many are kept."""
        if len(self.faults) < MOST_FAULTS:
            self.faults.append(fault)

    def read_part(self) -> None:
        """Reads the replies to the lines that were sent first of those whose replies weren't read."""
        part = self.unread.pop(0)
        count = len(part.lines)
        self.broken = True
        try:
            # No reply is shorter than `ok`.
            came = self.read_bytes(3 * count)
            if part.plain and came == b"ok\n" * count:
                for later in part.laters or ():
                    later.outcome = OUTCOME
            else:
                self.front = io.BytesIO(came)
                self.read_replies(part)
        except Ended as fault:
            self.give_up(part, fault)
            raise
        self.broken = False

    def read_bytes(self, size: int) -> bytes:
        """Reads this many bytes, or fewer if no more come."""
        try:
            return self.reader.read(size)
        except ConnectionError:
            return b""

    def read_replies(self, part: Part) -> None:
        """Reads the reply to each line of a part."""
        for at, line in enumerate(part.lines):
            came = self.next_line()
            if part.laters:
                part.laters[at].outcome = self.outcome(line, part.laters[at].reader, came)
            elif not came.startswith(b"ok") or not came.endswith(b"\n"):
                _value, fault = self.outcome(line, nothing, came)
                if fault:
                    self.note(fault)

    def outcome(self, line: str, reader: Reader, came: bytes) -> tuple[Any, Optional[Fault]]:
        """Returns the value of a reply whose first line came, and its fault."""
        try:
            before, last = self.reply(line, came)
            return self.value_of(line, reader, before, last), None
        except (Refused, BadCommand) as fault:
            return None, fault

    def give_up(self, part: Part, fault: Ended) -> None:
        """Has the calls whose replies won't come end so."""
        for each in (part, *self.unread):
            for later in each.laters or ():
                later.outcome = later.outcome or (None, fault)
        self.unread = []

    # ---- replies

    def raise_if_over(self, line: str) -> None:
        """Raises Ended if the session was ended, or a reply was not read to its end."""
        if self.over or self.broken:
            unread = "the reply to an earlier line was not read" if self.broken else ""
            raise Ended(line, None, self.status, self.text or unread)

    def write(self, lines: str) -> None:
        """Sends lines, each with its LF. If they can't be sent, the session has ended, and reading tells so."""
        with contextlib.suppress(BrokenPipeError, ConnectionError):
            self.writer.write(lines.encode("ascii"))
            self.writer.flush()

    def next_line(self) -> bytes:
        """Reads a line, with its LF unless no more comes."""
        came = self.front.readline()
        if not came.endswith(b"\n"):
            with contextlib.suppress(ConnectionError):
                came += self.reader.readline()
        return came

    def reply(self, line: str, came: bytes) -> tuple[list[str], str]:
        """Reads the reply to a line, whose first line came. Returns its rows and data lines, and its last line."""
        before: list[str] = []
        while came.endswith(b"\n"):
            text = came[:-1].decode("ascii")
            if not text.startswith(("data ", "row ")):
                return before, text
            before.append(text)
            came = self.next_line()
        raise self.ended(line, None)

    def value_of(self, line: str, reader: Reader, before: list[str], last: str) -> Any:
        """Returns a reply as a value, or raises what it says."""
        word, *words = last.split()
        if word == "ok":
            return reader(words, before)
        if word == "no":
            number = int(words[0])
            raise Refused(line, number, words[1], facts_of(number, words[2:]), bytes_of(words, before))
        if last == "bad command":
            raise BadCommand(line)
        raise self.ended(line, words[0] if word == "bad" and words else None)

    def ended(self, line: str, word: Optional[str]) -> Ended:
        """Returns what is to be raised of a session that ended."""
        if self.child:
            with contextlib.suppress(subprocess.TimeoutExpired):
                self.status = self.child.wait(LAST_SECONDS)
        return Ended(line, word, self.status, self.text)

    @property
    def text(self) -> str:
        """What the command has written to standard error by now, such as the address of a page."""
        if self.told:
            # Its end is where the command writes next, and must not be moved.
            size = os.fstat(self.told.fileno()).st_size
            self.last_text = os.pread(self.told.fileno(), size, 0).decode(errors="replace").strip()
        return self.last_text

    # ---- more

    @contextlib.contextmanager
    def batch(self) -> Iterator[Batch]:
        """Has lines sent many at once: in `with session.batch() as batch`, each call of `batch` returns a `Later`. If the block
        ends by an exception, the lines of the calls before it are sent all the same."""
        batch = Batch(self)
        try:
            yield batch
        finally:
            batch.flush()

    def dump_to(self, file: BinaryIO, pin: Optional[PinName] = None) -> int:
        """Writes a dump to a binary file, piece by piece, and returns its size."""
        number: Any = self.open().pin if pin is None else pin
        size = 0
        try:
            while True:
                data, last = self.piece(number)
                file.write(data)
                size += len(data)
                if last:
                    return size
        finally:
            if pin is None:
                self.close(number)

    def end(self) -> Any:
        """Ends the session. Returns the exit status of a command, or raises the first fault of lines whose answers nobody waited
        for, once the session has ended; `status` is then the status."""
        try:
            if self.stop and not self.over and not self.broken:
                self.flush()
        finally:
            self.leave()
        return self.status

    def leave(self) -> None:
        """Ends the session, whatever was not read."""
        self.over = True
        if self.stop:
            stop, self.stop = self.stop, None
            self.write("end\n")
            with contextlib.suppress(BrokenPipeError, ConnectionError):
                self.writer.close()
            with contextlib.suppress(ConnectionError):
                self.reader.read()
            self.reader.close()
            self.status = stop()
            if self.told:
                told, self.last_text, self.told = self.told, self.text, None
                told.close()
