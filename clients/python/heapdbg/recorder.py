"""A recorder: what a program does with its objects, as lines of a session."""
from __future__ import annotations

import functools
import threading
from typing import Any, Callable, Iterator, Mapping, NamedTuple, Optional, Union

from .connections import SecretFile
from .mirror import Known, Mirror, UnknownName
from .roots import FIRST_ELEMENT, LOCALS, ROOTS, Roots
from .session import Session
from .shapes import ArrayShape, ClassShape, Shape, kind_of, number_of
from .sinks import FileSink, SessionSink

# The class of the arrays of a shadow stack.
SHADOW = "[shadow;"


class Cost(NamedTuple):
    """What an operation cost: how often it was done, and how many lines that took."""

    times: int
    lines: int


def operation(act: Callable[..., Any]) -> Callable[..., Any]:
    """Returns a method that is done by one thread at a time, and whose lines are counted."""

    name = act.__name__

    @functools.wraps(act)
    def done(self: "Recorder", *given: Any, **named: Any) -> Any:
        with self.lock:
            before = self.said
            try:
                return act(self, *given, **named)
            finally:
                counts = self.counts.setdefault(name, [0, 0])
                counts[0] += 1
                counts[1] += self.said - before

    return done


class Call:
    """A call of the program, which runs as long as its block does."""

    def __init__(self, record: "Recorder", thread: int) -> None:
        self.record = record
        self.thread = thread
        self.results: list[Any] = []

    def __enter__(self) -> "Call":
        self.record.begin_call(self.thread)
        return self

    def __exit__(self, *_fault: object) -> None:
        self.record.end_call(self.results, self.thread)

    def returns(self, name: Any) -> Any:
        """Says that the call returns an object, which its caller then has in hand, or None. Returns the name."""
        if name is not None:
            self.results.append(name)
        return name


class Recorder:
    """Records what a program does with its objects.

    An object has a name of the program's choice: anything that a dict takes as a key, such as a text, a number, or the object
    itself if it is compared by identity. A name means the object that got it last. `thread` is the number of the thread that
    acts, from 0: the mutator whose registers are its roots.

    What a thread allocates, or `hold`s, it has in hand until its call ends. An object that is neither in hand, nor a `root`, nor
    named by a slot of one that is reached so, is garbage: naming it raises `UnknownName`. Lines are collected and sent many at
    once; over a session a refusal is raised as by a batched `Session`."""

    def __init__(self, sink: Union[FileSink, SessionSink]) -> None:
        self.sink = sink
        self.lock = threading.RLock()
        self.said = 0
        # How often each operation was done, and how many lines that took.
        self.counts: dict[str, list[int]] = {}
        self.mirror = Mirror()
        self.classes: dict[str, ClassShape] = {}
        self.arrays: dict[str, int] = {}
        self.threads: dict[int, Roots] = {}

    @classmethod
    def to_file(cls, path: Any) -> "Recorder":
        """Records to a file, for `heapdbg explore --from`."""
        return cls(FileSink(path))

    @classmethod
    def to_port(cls, port: int, secret: SecretFile = None) -> "Recorder":
        """Records to the heap of a `heapdbg serve`, of which it takes one session. `secret` is the path of the file whose word
        that heap asks for, if it asks for one."""
        return cls(SessionSink(Session.connect(port, secret=secret)))

    @classmethod
    def to_session(cls, session: Session) -> "Recorder":
        """Records to the heap of a session, such as `Session.explore()`."""
        return cls(SessionSink(session))

    def __enter__(self) -> "Recorder":
        return self

    def __exit__(self, *_fault: object) -> None:
        self.end()

    # ---- classes

    @operation
    def define(self, class_name: str, kinds: Mapping[str, str]) -> None:
        """Defines a class with the kinds of its fields, before it is used first. Without this, `alloc` does so."""
        if class_name in self.classes:
            raise ValueError(f"{class_name} is defined already")
        self.add_class(class_name, kinds)

    def add_class(self, class_name: str, kinds: Mapping[str, str]) -> None:
        """Defines a class."""
        self.said += 1
        self.classes[class_name] = ClassShape(self.sink.define(class_name, list(kinds.items())), kinds)

    def array_class(self, class_name: str) -> int:
        """Returns the number of a class of object arrays, which is defined if it is new."""
        if class_name not in self.arrays:
            self.said += 1
            self.arrays[class_name] = self.sink.define_array(class_name)
        return self.arrays[class_name]

    # ---- objects

    @operation
    def alloc(self, name: Any, class_name: str, fields: Optional[Mapping[str, Any]] = None, thread: int = 0) -> Any:
        """Allocates an instance, which the thread has in hand. A class that is new gets these fields: an int is a `long`, a bool
        a `boolean`, a float a `double`, and None or a name an `object`. Returns the name."""
        fields = fields or {}
        if class_name not in self.classes:
            self.add_class(class_name, {field: kind_of(value) for field, value in fields.items()})
        shape = self.classes[class_name]
        known = self.made(name, shape, f"new {{}} {{}} {shape.number}", thread)
        for field, value in fields.items():
            # A new object's slots are null or 0 already.
            kind = shape.slot(field).kind
            if value is not None and (kind == "object" or value):
                self.write_slot(known, field, value, thread)
        return name

    @operation
    def alloc_array(self, name: Any, class_name: str, length: int, thread: int = 0) -> Any:
        """Allocates an array of references of a class such as `[lisp/Cell;`, at most 1,024, each None. Returns the name."""
        self.made(name, ArrayShape("object", length), f"newarray {{}} {{}} {self.array_class(class_name)} {length}", thread)
        return name

    @operation
    def alloc_values(self, name: Any, kind: str, length: int, thread: int = 0) -> Any:
        """Allocates an array of values of a kind, at most 1,024, each 0. Returns the name."""
        self.made(name, ArrayShape(kind, length), f"newprim {{}} {{}} {kind} {length}", thread)
        return name

    @operation
    def write(self, name: Any, field: Union[str, int], value: Any, thread: int = 0) -> None:
        """Writes a field of an instance, or an element of an array: a number, or the name of an object or None."""
        self.write_slot(self.mirror.known(name), field, value, thread)

    # ---- roots

    @operation
    def root(self, name: Any, thread: int = 0) -> None:
        """Makes an object a root of the thread until `unroot`, as a global variable is."""
        known, roots = self.mirror.known(name), self.roots(thread)
        spot, times = roots.named.get(known, (-1, 0))
        if not times:
            spot = self.keep(known, roots, ROOTS)
        roots.named[known] = (spot, times + 1)

    @operation
    def unroot(self, name: Any, thread: int = 0) -> None:
        """Undoes a `root` of the thread, or if there is none has an object no longer in hand. Raises UnknownName if it is neither
        a root nor in hand."""
        known, roots = self.mirror.known(name), self.roots(thread)
        if known in roots.named:
            spot, times = roots.named.pop(known)
            if times > 1:
                roots.named[known] = (spot, times - 1)
            else:
                roots.take_away(spot)
        else:
            calls = [call for call in roots.calls if known in call]
            if not calls:
                raise UnknownName(f"{name!r} is no root")
            roots.take_away(calls[-1].pop(known))

    @operation
    def hold(self, name: Any, thread: int = 0) -> None:
        """Says that the thread has an object in hand until its call ends, such as one that it read from a field."""
        known, roots = self.mirror.known(name), self.roots(thread)
        if known not in roots.calls[-1]:
            roots.calls[-1][known] = self.keep(known, roots, LOCALS)

    def call(self, thread: int = 0) -> Call:
        """Returns a call: at the end of its `with` block the thread has no longer in hand what it got in it, but for what the
        call `returns`."""
        return Call(self, thread)

    # ---- moments

    @operation
    def collect(self) -> None:
        """Runs a whole cycle of the heap's collector. The heap has to answer questions: `explore`, or `serve --questions 1`."""
        self.rest()
        self.tell("collect")
        self.mirror.forget(self.rooted())

    @operation
    def pin(self) -> int:
        """Opens a pin, which keeps the current state for questions, and returns its number. A heap has at most 4."""
        self.rest()
        self.said += 1
        return self.sink.pin()

    @operation
    def flush(self) -> None:
        """Has all lines in the file, or done by the heap. Raises the first fault of a session."""
        self.rest()
        self.sink.flush()

    def end(self) -> None:
        """Ends the record: closes the file, or ends the session. Raises the first fault of a session."""
        self.rest()
        self.sink.end()

    # ---- what these are made of

    def tell(self, line: str) -> None:
        """Says a line."""
        self.said += 1
        self.sink.tell(line)

    @property
    def costs(self) -> dict[str, Cost]:
        """What each operation cost so far."""
        return {name: Cost(*counts) for name, counts in self.counts.items()}

    def roots(self, thread: int) -> Roots:
        """Returns the roots of a thread."""
        if thread not in self.threads:
            self.threads[thread] = Roots(thread, self.tell, lambda: self.array_class(SHADOW))
        return self.threads[thread]

    def rooted(self) -> Iterator[Known]:
        """Yields what roots name."""
        for roots in self.threads.values():
            yield from roots.at.values()

    def rest(self) -> None:
        """Has only roots named by registers."""
        for roots in self.threads.values():
            roots.rest()

    def made(self, name: Any, shape: Shape, line: str, thread: int) -> Known:
        """Allocates an object by a line that lacks mutator and register, and has it in hand."""
        roots = self.roots(thread)
        self.mirror.forget_some(self.rooted())
        spot = roots.new_spot(LOCALS)
        register = spot if spot < FIRST_ELEMENT else roots.work_register()
        self.tell(line.format(thread, register))
        known = self.mirror.add(name, shape)
        if spot < FIRST_ELEMENT:
            roots.note(known, spot)
        else:
            roots.works(register, known)
            roots.put(known, spot, register)
        roots.calls[-1][known] = spot
        return known

    def write_slot(self, known: Known, field: Any, value: Any, thread: int) -> None:
        """Writes a slot."""
        slot, roots = known.shape.slot(field), self.roots(thread)
        other = self.mirror.known(value) if slot.kind == "object" and value is not None else None
        number = 0 if slot.kind == "object" else number_of(slot.kind, value)
        target = roots.get(known)
        if slot.kind != "object":
            self.tell(f"put {thread} {target} {slot.number} {number}")
            return
        source = roots.get(other, target) if other else roots.null(target)
        self.tell(f"store {thread} {target} {slot.number} {source}")
        known.holds(slot.number, other)

    def keep(self, known: Known, roots: Roots, registers: tuple[int, ...]) -> int:
        """Makes an object a root at a new spot, and returns that."""
        register = roots.get(known)
        spot = roots.new_spot(registers)
        roots.put(known, spot, register)
        return spot

    def begin_call(self, thread: int) -> None:
        """Begins a call."""
        with self.lock:
            self.roots(thread).calls.append({})

    @operation
    def end_call(self, results: list[Any], thread: int) -> None:
        """Ends a call that returns these objects."""
        roots = self.roots(thread)
        for result in results:
            self.hand_over(self.mirror.known(result), roots)
        for spot in roots.calls.pop().values():
            roots.take_away(spot)

    def hand_over(self, known: Known, roots: Roots) -> None:
        """Has the caller of a call have an object in hand."""
        inner, outer = roots.calls[-1], roots.calls[-2]
        if known not in outer:
            outer[known] = inner.pop(known) if known in inner else self.keep(known, roots, LOCALS)
