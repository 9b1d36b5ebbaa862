#!/usr/bin/env python3
"""Runs examples/lisp.py and finds its leak by questions to the built program: `recording.py PROGRAM`.

Looks also whether the leak is gone once `apply` is mended as docs/RECORD.md says, and whether a heap that is served has the same.
Prints a line for each thing that is otherwise than it must be, and ends with status 1 if there is one."""
import os
import pathlib
import re
import subprocess
import sys
import tempfile

from servers import LIMIT, TOP, Server

from heapdbg import Pin, Session

LISP = TOP / "examples/lisp.py"
# The lines of `apply` that an error leaves half done, and the same lines mended.
LEAKS = """            value = self.evaluate(closure.body, env)
            self.machine.set("calls", self.machine.calls.caller)
"""
MENDED = """            try:
                value = self.evaluate(closure.body, env)
            finally:
                self.machine.set("calls", self.machine.calls.caller)
"""
GROWN = {"lisp/Call", "lisp/Env", "lisp/Pair", "lisp/Number"}


def ran(script, *words):
    """Runs a script. Returns what it prints, or raises ValueError."""
    done = subprocess.run([sys.executable, "-B", script, *words], capture_output=True, text=True, timeout=LIMIT * 6)
    if done.returncode or done.stderr:
        raise ValueError(f"{script} {words}: status {done.returncode}, {done.stderr[-300:]}")
    return done.stdout


def opened(program, path):
    """Returns a session with the heap of a record."""
    return Session.explore(program, regions=64, keep=65536, load=path)


def hunted(heap):
    """Yields what the leak's questions are answered otherwise than they must be."""
    grown = heap.growth(Pin(1))
    if {row.class_name for row in grown} != GROWN or any(row.new_objects <= row.old_objects > 0 for row in grown):
        yield f"other classes grow: {grown}"
    machine = heap.registers()[0].id
    calls = [row.id for row in heap.objects() if row.class_name == "lisp/Call"]
    newest = heap.show(None, machine)[0].value
    if newest not in calls or heap.referrers(None, newest) != [(machine, 0)]:
        yield f"the machine names {newest}, no call"
    path = heap.path(None, calls[0])
    if path[:2] != [(0, 0, machine), (machine, 0, newest)] or {step.slot for step in path[2:]} != {1} or len(path) != len(calls) + 1:
        yield f"the oldest call is there by another way: {path}"
    entered = heap.wrote(machine, 0).place
    later = [step for step in heap.history(heap.heap_status()["place"] - entered) if step.record == "store" and step.facts[0] == machine]
    if entered is None or heap.born(newest).place > entered or later:
        yield f"the call that was entered at {entered} is left: {later}"


def recorded(program, folder):
    """Yields what is wrong with the session that the Lisp leaves, as it stands and mended."""
    path, mended = folder / "lisp.session", folder / "examples/lisp.py"
    said = ran(LISP, path)
    lines, operations = re.search(r"has ([\d,]+) lines, of ([\d,]+) operations", said).groups()
    if f"{lines} lines in {operations} operations" not in " ".join((TOP / "docs/RECORD.md").read_text().split()):
        yield f"RECORD has other numbers than {lines} lines, {operations} operations"
    if int(lines.replace(",", "")) != path.read_text().count("\n") or f"--from {path}" not in said:
        yield f"{LISP.name} says {said!r}"
    with opened(program, path) as heap:
        yield from hunted(heap)
    if heap.text:
        yield f"the recorded session has lines that are refused: {heap.text[:200]}"
    mended.parent.mkdir()
    (folder / "clients").symlink_to(TOP / "clients")
    source = LISP.read_text()
    mended.write_text(source.replace(LEAKS, MENDED))
    if source.count(LEAKS) != 1:
        yield f"{LISP.name} has no leak that can be mended"
    ran(mended, path)
    with opened(program, path) as heap:
        if grown := heap.growth(Pin(1)):
            yield f"what is mended grows: {grown}"


def served(program):
    """Yields what is wrong with the Lisp over a heap that is served."""
    with Server(program, 2, "--regions", "64", "--keep", "65536", "--questions", "1") as server:
        with server.session() as heap:
            if f"heapdbg explore --port {server.port}" not in (said := ran(LISP, "--port", str(server.port))):
                yield f"{LISP.name} says {said!r}"
            yield from hunted(heap)
        if server.ended() != (0, ["quit", "quit"], b""):
            yield f"the served heap ends with {server.ended()}"


def main(program):
    """Returns the exit status."""
    found = []
    with tempfile.TemporaryDirectory() as name:
        for part in (recorded(program, pathlib.Path(name)), served(program)):
            try:
                found.extend(part)
            except (ValueError, LookupError, AttributeError, OSError, subprocess.SubprocessError) as fault:
                found.append(f"{part.__name__}: {fault!r}")
    for line in found:
        print(line)
    return 1 if found else 0


if __name__ == "__main__":
    sys.exit(main(os.path.abspath(sys.argv[1])))
